"""CPython's own cases of `urllib.parse`: each call that its tests make, of the Python that runs
this, is made of `fluent_uri.parse` too. cpython_differences.txt has what differs, by its cause."""

import contextlib
import importlib
import io
import itertools
import os
import pathlib
import types
import unittest
import urllib.parse
import warnings

import fluent_uri.parse as ours

LIST = pathlib.Path(__file__).with_name("cpython_differences.txt")
PAGE = LIST.parents[2] / "docs" / "PYTHON.md"
ATTRIBUTES = "username password hostname port".split()


def cases():
    """CPython's tests, or None where Debian's libpython3-testsuite is not installed."""
    try:
        return importlib.import_module("test.test_urlparse")
    except ImportError:
        return None


def outcome(call):
    """What a call returns, with what its result has beside, or that it raises."""
    try:
        made = call()
        if isinstance(made, tuple) and hasattr(made, "geturl"):
            names = ATTRIBUTES if hasattr(made, "netloc") else []
            more = [outcome(lambda: getattr(made, it)) for it in names]
            return tuple(made), more, outcome(made.geturl)
        return made
    except (ValueError, TypeError, AttributeError):
        return "raised"


def recorded(module):
    """Each call that the tests make: a name of a function, and the words for it."""
    made = {}

    def recorder(name, call):
        def record(*words, **named):
            if all(map(is_plain, [*words, *named.values()])):
                said = [*map(ascii, words), *(f"{k}={v!a}" for k, v in named.items())]
                made[f"{name}({', '.join(said)})"] = (name, words, named)
            return call(*words, **named)

        return record

    shim = types.ModuleType("urllib.parse")
    vars(shim).update(vars(urllib.parse))
    for name in ours.__all__:
        if name[0].islower():
            setattr(shim, name, recorder(name, getattr(urllib.parse, name)))
    before, module.urllib = module.urllib, types.SimpleNamespace(parse=shim)
    try:
        suite = unittest.defaultTestLoader.loadTestsFromModule(module)
        with warnings.catch_warnings(), contextlib.redirect_stderr(io.StringIO()):
            warnings.simplefilter("ignore")
            unittest.TextTestRunner(stream=io.StringIO()).run(suite)
    finally:
        module.urllib = before
    return made


def is_plain(it):
    """Whether the words of a call say all that it is given."""
    if isinstance(it, (list, tuple)):
        return all(map(is_plain, it))
    if isinstance(it, dict):
        return all(map(is_plain, itertools.chain(it, it.values())))
    return it is None or isinstance(it, (str, bytes, int, float))


def has_bytes(it):
    if isinstance(it, (list, tuple)):
        return any(map(has_bytes, it))
    return isinstance(it, bytes)


def listed():
    """The cause of each call that differs."""
    made, cause = {}, None
    for line in LIST.read_text(encoding="utf-8").splitlines():
        if line.startswith("# "):
            cause = line[2:]
        elif line:
            made[line] = cause
    return made


@unittest.skipIf("TESTED_ONCE" in os.environ, "it does not hang on how calls are made")
class Cases(unittest.TestCase):
    def test_each_call_of_the_tests(self):
        module = cases()
        if module is None:
            self.skipTest("there is no test.test_urlparse: libpython3-testsuite has it")
        calls, known, differs = recorded(module), listed(), 0
        for said, (name, words, named) in calls.items():
            made = outcome(lambda: getattr(ours, name)(*words, **named))
            wanted = outcome(lambda: getattr(urllib.parse, name)(*words, **named))
            if made == wanted:
                continue
            differs += 1
            if has_bytes([words, *named.values()]):
                self.assertEqual(made, "raised", said)
            else:
                self.assertIn(said, known, f"{made!r} and {wanted!r}")
        self.assertGreater(len(calls) - differs, 400)

    def test_each_cause_is_on_the_page(self):
        page = PAGE.read_text(encoding="utf-8")
        for cause in set(listed().values()):
            self.assertIn(f"| {cause} |", page)


if __name__ == "__main__":
    unittest.main()
