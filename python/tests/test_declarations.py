"""What the package says of the shared library, against its header and its symbols."""

import ctypes
import pathlib
import re
import unittest

from fluent_uri import AsciiHostErrorKind, BuildErrorKind, Component, HostKind, ParseErrorKind
from fluent_uri import ResolveErrorKind, _native
from fluent_uri import _declarations as ours

ROOT = pathlib.Path(__file__).resolve().parents[2]
HEADER = ROOT / "c" / "include" / "fluent_uri.h"
COMMENT = re.compile(r"/\*.*?\*/", re.DOTALL)
# What each C type is called from Python as.
TYPES = {
    "uint32_t": {ours.NUMBER},
    "size_t": {ours.SIZE},
    "uint64_t": {ours.WORD},
    "const uint8_t *": {ours.BYTES, ours.OUT},
    "uint8_t *": {ours.OUT},
    "const uint32_t *": {ours.OUT},
    "uint32_t *": {ours.OUT},
    "const uint64_t *": {ours.OUT},
    "uint64_t *": {ours.OUT},
    "size_t *": {ours.OUT},
    "fluent_uri_parts *": {ours.OUT},
    "const fluent_uri_parts *": {ours.OUT},
    "fluent_uri_outcome *": {ours.OUT},
    "fluent_uri_pair *": {ours.OUT},
    "const fluent_uri_components *": {ours.OUT},
}
FIELDS = {"uint32_t": ctypes.c_uint32, "size_t": ctypes.c_size_t, "fluent_uri_span": ours.Span}


def header():
    return COMMENT.sub("", HEADER.read_text(encoding="utf-8"))


def functions():
    """The functions that the header declares: a name, and the types of its arguments in order."""
    for name, words in re.findall(r"uint32_t fluent_uri_(\w+)\(([^)]*)\);", header()):
        its = [re.sub(r"\s+", " ", it).strip() for it in words.split(",") if it != "void"]
        yield name, [re.sub(r"(\*?)\s*\w+$", r"\1", it).strip() for it in its]


def constants(name):
    (body,) = re.findall(r"enum fluent_uri_%s \{(.*?)\}" % name, header(), re.DOTALL)
    return {key: int(value) for key, value in re.findall(r"FLUENT_URI_(\w+) = (\d+)", body)}


def fields(name):
    (body,) = re.findall(r"typedef struct \{([^}]*)\} fluent_uri_%s;" % name, header())
    for kind, names in re.findall(r"(\w+) ([\w, ]+);", body):
        for it in names.split(","):
            yield it.strip(), FIELDS[kind]


class Declarations(unittest.TestCase):
    def test_functions(self):
        declared = dict(functions())
        self.assertGreater(len(declared), 15)
        self.assertEqual(set(ours.FUNCTIONS) - set(declared), set())
        for name, types in ours.FUNCTIONS.items():
            self.assertEqual(len(types), len(declared[name]), name)
            for at, (python, c) in enumerate(zip(types, declared[name])):
                self.assertIn(python, TYPES[c], (name, at, c))

    def test_each_function_is_in_the_library(self):
        for name in ours.FUNCTIONS:
            self.assertTrue(hasattr(_native.library, f"fluent_uri_{name}"), name)

    def test_constants(self):
        self.assertEqual(constants("kind"), ours.KINDS)
        self.assertEqual(constants("error"), ours.ERRORS)
        self.assertEqual(constants("component"), ours.COMPONENTS)
        self.assertEqual(constants("host_kind"), ours.HOST_KINDS)
        self.assertEqual(constants("port"), ours.PORTS)

    def test_enums(self):
        for kind in [ParseErrorKind, ResolveErrorKind, BuildErrorKind, AsciiHostErrorKind]:
            for it in kind:
                self.assertEqual(ours.ERRORS[it.name], it)
        for it in HostKind:
            self.assertEqual(ours.HOST_KINDS[it.name], it)
        for it in Component:
            self.assertEqual(ours.COMPONENTS["HOST" if it.name == "REG_NAME" else it.name], it)

    def test_structs(self):
        for name, struct in [("span", ours.Span), ("parts", ours.Parts), ("outcome", ours.Outcome),
                             ("components", ours.Components)]:
            self.assertEqual(list(fields(name)), list(struct._fields_))


if __name__ == "__main__":
    unittest.main()
