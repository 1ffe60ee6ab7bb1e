"""A package that is imported more than once: by another interpreter, again, and from anywhere."""

import gc
import importlib
import os
import pathlib
import shutil
import subprocess
import sys
import tempfile
import threading
import unittest

import fluent_uri
from fluent_uri import Iri, IriRef, ParseError, Uri, UriRef, _native
from packages import imported_anew
from works import works

try:
    from _testcapi import run_in_subinterp
except ImportError:
    run_in_subinterp = None

PACKAGE = pathlib.Path(fluent_uri.__file__).parent

TESTS = pathlib.Path(__file__).parent
# What a program of another interpreter begins with.
PATHS = f"import sys; sys.path[:] = {[str(TESTS), *sys.path]!r}\nfrom works import works\n"


def run(code, **variables):
    return subprocess.run(
        [sys.executable, "-c", code],
        env={**os.environ, **variables},
        stderr=subprocess.PIPE,
        text=True,
    )


class Again(unittest.TestCase):
    def setUp(self):
        self.values = [it("x://a/b") for it in (Uri, UriRef, Iri, IriRef)]

    def check_values(self):
        """The values from before are what they were."""
        for value in self.values:
            self.assertEqual((value.host, value.path), ("a", "/b"))
            self.assertIs(type(value.normalize()), type(value))
            with self.assertRaises(ParseError):
                type(value).parse("a b")
        works(fluent_uri)

    def test_a_second_package(self):
        other = imported_anew()
        self.assertIsNot(other.Uri, Uri)
        self.assertIs(other.is_compiled, fluent_uri.is_compiled)
        works(other)
        self.check_values()
        works(other)
        self.assertNotEqual(other.Uri("a:b"), Uri("a:b"))
        with self.assertRaises(TypeError):
            other.batch.parse(["a:b"], Uri) and fluent_uri.batch.resolve(other.Uri("a:b"), [])

    def test_what_is_left_of_a_package_that_is_dropped(self):
        value = imported_anew().Iri("x://é/%7e")
        gc.collect()
        self.assertEqual((value.host, str(value.normalize())), ("é", "x://é/~"))
        with self.assertRaises(ValueError):
            value.resolve("a b")
        del value
        gc.collect()
        self.check_values()

    def test_a_package_that_is_dropped_is_freed(self):
        imported_anew()
        gc.collect()
        before = len(gc.get_objects())
        for _ in range(5):
            works(imported_anew())
        gc.collect()
        self.assertLess(len(gc.get_objects()) - before, 2000)

    def test_reload(self):
        before = sys.modules["fluent_uri"].__dict__.copy()
        try:
            importlib.reload(fluent_uri)
            works(fluent_uri)
            for value in self.values:
                self.assertEqual((value.host, value.path), ("a", "/b"))
                self.assertIs(type(value.normalize()), type(value))
            self.assertIs(fluent_uri.ParseError, ParseError)
            importlib.reload(fluent_uri.batch)
            works(fluent_uri)
        finally:
            fluent_uri.__dict__.update(before)
            importlib.reload(fluent_uri.batch)
        self.check_values()

    def test_in_threads(self):
        packages, wrong = [], []

        def work(package):
            try:
                for _ in range(200):
                    works(package)
            except BaseException as error:
                wrong.append(error)

        packages = [fluent_uri, imported_anew(), imported_anew(), fluent_uri]
        threads = [threading.Thread(target=work, args=(it,)) for it in packages]
        for it in threads:
            it.start()
        for it in threads:
            it.join()
        self.assertEqual(wrong, [])


class Elsewhere(unittest.TestCase):
    @unittest.skipUnless(run_in_subinterp, "this Python has no _testcapi")
    def test_another_interpreter(self):
        kept = Uri("x://a/b")
        for _ in range(3):
            code = f"{PATHS}import fluent_uri\nworks(fluent_uri)"
            self.assertEqual(run_in_subinterp(code), 0)
            works(fluent_uri)
            self.assertEqual((kept.host, type(kept.normalize())), ("a", Uri))

    @unittest.skipIf(sys.version_info < (3, 12), "interpreters share the lock before Python 3.12")
    def test_an_interpreter_with_a_lock_of_its_own(self):
        """It has the package, or else an ImportError."""
        code = f"{PATHS}try:\n    import fluent_uri\nexcept ImportError:\n    pass\nelse:\n"
        code += "    works(fluent_uri)\n"
        name = "_interpreters" if sys.version_info >= (3, 13) else "_xxsubinterpreters"
        ran = run(
            f"import {name} as them\nit = them.create()\nfailed = them.run_string(it, {code!r})\n"
            "assert not failed, failed"
        )
        self.assertEqual((ran.returncode, ran.stderr), (0, ""))

    def test_a_path_that_is_not_utf_8(self):
        folder = tempfile.mkdtemp(suffix=os.fsdecode(b"-\xff"))
        self.addCleanup(shutil.rmtree, os.fsencode(folder))
        shutil.copytree(os.fsencode(PACKAGE), os.fsencode(folder) + b"/fluent_uri")
        # Python 3.12 itself loads no compiled module from there.
        is_compiled = fluent_uri.is_compiled and sys.version_info < (3, 12)
        ran = run(
            f"import fluent_uri\nassert fluent_uri.is_compiled is {is_compiled}\n"
            f"{PATHS}works(fluent_uri)",
            PYTHONPATH=folder,
        )
        self.assertEqual((ran.returncode, ran.stderr), (0, ""))

    def test_a_library_named_by_a_path_that_is_not_utf_8(self):
        path = os.fsdecode(b"/no/such/\xff")
        ran = run("import fluent_uri", FLUENT_URI_LIBRARY=path)
        self.assertIn("ImportError: fluent_uri cannot load", ran.stderr)

    def test_without_the_global_lock_there_is_no_package(self):
        ran = run("import sys; sys._is_gil_enabled = lambda: False; import fluent_uri")
        self.assertRegex(ran.stderr.splitlines()[-1], "^ImportError: fluent_uri needs")
        self.assertEqual(run("import sys; sys._is_gil_enabled = lambda: True; import fluent_uri")
                         .returncode, 0)

    def test_the_package_brings_batch(self):
        self.assertEqual(run("import fluent_uri; fluent_uri.batch.parse([])").returncode, 0)

    @unittest.skipUnless(fluent_uri.is_compiled, "there is no compiled module")
    def test_a_module_that_is_not_opened(self):
        ran = run(
            "from fluent_uri import _calls; import sys; del sys.modules['fluent_uri._compiled']\n"
            "import importlib\nfresh = importlib.import_module('fluent_uri._compiled')\n"
            "try:\n    fresh.Uri('a:b')\nexcept TypeError:\n    pass\n"
            "for given in [{}, {'parse': 1}, {'parse': 'a'}, {'parse': 0}, 5, None]:\n"
            "    try:\n        fresh.open(given, None, ValueError, ())\n"
            "    except (ImportError, TypeError):\n"
            "        pass\n    else:\n        raise SystemExit('opened')\n"
            "assert _calls.Uri('a:b').path == 'b'"
        )
        self.assertEqual((ran.returncode, ran.stderr), (0, ""))
        self.assertTrue(_native.path)


if __name__ == "__main__":
    unittest.main()
