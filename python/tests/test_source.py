"""The language level of each file, and its types where mypy is there."""

import ast
import os
import pathlib
import shutil
import subprocess
import unittest

PYTHON = pathlib.Path(__file__).resolve().parents[1]
PACKAGE = PYTHON / "src" / "fluent_uri"


@unittest.skipIf("TESTED_ONCE" in os.environ, "it does not hang on how calls are made")
class Source(unittest.TestCase):
    def test_each_file_is_of_python_3_8(self):
        files = [*PACKAGE.glob("*.py"), *(PYTHON / "tests").glob("*.py")]
        self.assertGreater(len(files), 10)
        for file in files:
            ast.parse(file.read_text(encoding="utf-8"), str(file), feature_version=(3, 8))

    def test_no_file_is_long(self):
        for folder in [PYTHON, PACKAGE, PYTHON / "tests"]:
            for file in folder.iterdir():
                if file.is_file() and file.suffix not in (".so", ".0"):
                    lines = file.read_text(encoding="utf-8").splitlines()
                    self.assertLessEqual(len(lines), 400, file)
                    if file.suffix != ".txt":  # (calls of others)
                        self.assertLessEqual(max(map(len, lines), default=0), 100, file)

    @unittest.skipUnless(shutil.which("mypy"), "mypy is not installed")
    def test_types(self):
        words = ["mypy", "--strict", "--cache-dir=/dev/null"]
        words += [str(PACKAGE), str(PYTHON / "tests" / "typed.py")]
        environment = {**os.environ, "MYPYPATH": str(PACKAGE.parent)}
        ran = subprocess.run(words, env=environment, capture_output=True, text=True)
        self.assertEqual(ran.returncode, 0, ran.stdout + ran.stderr)


if __name__ == "__main__":
    unittest.main()
