"""The examples of the package, of its README.md and of docs/PYTHON.md, and the table of what
differs on that page, run."""

import doctest
import importlib
import os
import pathlib
import re
import subprocess
import sys
import unittest
import urllib.parse

import fluent_uri.parse

PAGE = pathlib.Path(__file__).resolve().parents[2] / "docs" / "PYTHON.md"
MODULES = [
    *("", "._building", "._columns", "._encoding", "._errors", "._hosts", "._keys", "._paths"),
    *(".batch", ".parse"),
]
NAMES = {"Uri": fluent_uri.Uri, "Iri": fluent_uri.Iri}
READ_ME = PAGE.parents[1] / "python" / "README.md"
COMPARE = PAGE.parents[1] / "python" / "compare-urllib"
ROW = re.compile(r"^\| `(\w+\(.*?)` \| `(.*?)` \| `(.*?)` \|.*\|$", re.MULTILINE)


def result(module, call):
    try:
        return repr(eval(call, dict(vars(module))))
    except Exception as error:
        return type(error).__name__


class Differences(unittest.TestCase):
    def test_each_row_of_the_table(self):
        rows = ROW.findall(PAGE.read_text(encoding="utf-8").replace(r"\|", "\0"))
        self.assertGreater(len(rows), 30)
        for row in rows:
            call, theirs, ours = (it.replace("\0", "|") for it in row)
            self.assertEqual(result(urllib.parse, call), theirs, call)
            self.assertEqual(result(fluent_uri.parse, call), ours, call)
            self.assertNotEqual(theirs, ours)


    @unittest.skipIf("TESTED_ONCE" in os.environ, "it does not hang on how calls are made")
    def test_each_difference_of_generated_texts_has_a_cause_of_the_page(self):
        words = [sys.executable, str(COMPARE), "3000"]
        ran = subprocess.run(words, stdout=subprocess.PIPE, stderr=subprocess.PIPE, text=True)
        self.assertEqual((ran.returncode, ran.stderr), (0, ""))
        page = PAGE.read_text(encoding="utf-8")
        causes = re.findall("^ *[0-9,]+  (.*?): ", ran.stdout, re.MULTILINE)
        self.assertGreater(len(causes), 12)
        for it in causes:
            self.assertIn(f"| {it} |", page)
        for it in re.findall(r"^(\w+): ", ran.stdout, re.MULTILINE):
            self.assertIn(f"`{it}`", page)


def load_tests(loader, tests, pattern):
    for name in MODULES:
        module = importlib.import_module(f"fluent_uri{name}")
        tests.addTests(doctest.DocTestSuite(module, extraglobs=NAMES))
    for page in [PAGE, READ_ME]:
        how = {"module_relative": False, "encoding": "utf-8"}
        tests.addTests(doctest.DocFileSuite(str(page), **how))
    return tests


if __name__ == "__main__":
    unittest.main()
