"""Each public call with each wrong type, and wrong values of a right one: a TypeError or a
ValueError, and never a result."""

import sys
import unittest
from array import array

import fluent_uri
import fluent_uri.parse
from fluent_uri import Component, HostKind, Iri, IriRef, ParseError, Uri, UriRef, _calls, batch
from fluent_uri import decode, encode
from fluent_uri.parse import urljoin, urlsplit

KINDS = [Uri, UriRef, Iri, IriRef]
DATA, OFFSETS = b"a:b", array("I", [0, 3])


class Claims:
    """What says that it is a str."""

    __class__ = str

    def __str__(self):
        return "a:b"


class Converts:
    def __str__(self):
        return "a:b"

    def __bytes__(self):
        return b"a:b"

    def __index__(self):
        return 2


def wrong():
    """An object of each type, by its name."""
    return {
        "None": None,
        "int": 5,
        "bool": True,
        "float": 2.5,
        "whole float": 2.0,
        "complex": 1j,
        "str": "a:b",
        "bytes": b"a:b",
        "bytearray": bytearray(b"a:b"),
        "memoryview": memoryview(b"a:b"),
        "list": ["a:b"],
        "tuple": ("a:b",),
        "dict": {"a:b": 1},
        "set": {"a:b"},
        "numbers": [97, 58],
        "array": array("I", [0, 3]),
        "wide array": array("d", [0, 3]),
        "generator": (it for it in ["a:b"]),
        "object": object(),
        "function": wrong,
        "module": sys,
        "class": Claims,
        "a kind": Uri,
        "a base": _calls.Uri,
        "a value": Uri("a:b"),
        "a reference": UriRef("a"),
        "an IRI": Iri("a:b"),
        "component": Component.PATH,
        "host kind": HostKind.IPV4,
        "error": ValueError("a:b"),
        "claims": Claims(),
        "converts": Converts(),
        "slice": slice(0, 1),
        "ellipsis": ...,
    }


WITHOUT_ARGUMENT = {"normalize", "to_uri", "query_pairs"}
VALUES = {"a value", "a reference", "an IRI"}
TEXTS = {"str", *VALUES}
ITERABLES = {"list", "tuple", "dict", "set", "generator"}
BUFFERS = {"bytes", "bytearray", "memoryview", "array", "wide array"}
INDICES = {"int", "bool", "component", "host kind", "converts"}
CLASSES = {"a kind", "a base"}
VALUE = Uri("x://a/b")
MADE = batch.Column(DATA, OFFSETS, b"\1")

# A call with an argument, and the types that are right. A right one may have a wrong value.
CALLS = {
    **{f"{it.__name__}.parse": (it.parse, TEXTS) for it in KINDS},
    **{f"{it.__name__}.try_parse": (it.try_parse, TEXTS) for it in KINDS},
    **{f"{it.__name__}.is_valid": (it.is_valid, TEXTS) for it in KINDS},
    **{f"{it.__name__}.mend": (it.mend, TEXTS) for it in KINDS},
    **{f"{it.__name__}.mend_link": (it.mend_link, TEXTS) for it in KINDS},
    **{it.__name__: (it, TEXTS) for it in KINDS},
    "Reference": (fluent_uri.Reference, set()),
    "with_fragment": (VALUE.with_fragment, {"str", "None"}),
    "/": (lambda it: VALUE / it, {"str"}),
    "with_name": (VALUE.with_name, {"str"}),
    "with_query": (VALUE.with_query, {"None"}),
    "with_query, a pair": (lambda it: VALUE.with_query([it]), set()),
    "with_query, a name": (lambda it: VALUE.with_query([(it, "")]), {"str"}),
    "with_query, a value": (lambda it: VALUE.with_query({"a": it}), {"str"}),
    **{f"build, {it}": (lambda given, it=it: Uri.build(**{"scheme": "x", "host": "h", it: given}),
                        {"str", "None"})
       for it in ["scheme", "userinfo", "path", "query", "fragment"]},
    **{f"replace, {it}": (lambda given, it=it: VALUE.replace(**{it: given}), {"str", "None"})
       for it in ["scheme", "userinfo", "host", "path", "query", "fragment"]},
    "build, host": (lambda it: Uri.build(scheme="x", host=it), {"str", "None"}),
    "build, port": (lambda it: Uri.build(scheme="x", host="h", port=it), {"str", "int", "None"}),
    "replace, port": (lambda it: VALUE.replace(port=it), {"str", "int", "None"}),
    "resolve": (VALUE.resolve, TEXTS),
    "Iri.resolve": (Iri("x://é").resolve, TEXTS),
    "relativize": (VALUE.relativize, TEXTS),
    "Iri.relativize": (Iri("x://é").relativize, TEXTS),
    "join_link": (VALUE.join_link, TEXTS),
    "Iri.join_link": (Iri("x://é").join_link, TEXTS),
    "resolve, mended": (lambda it: VALUE.resolve(it, mend=True), TEXTS),
    "relativize, mended": (lambda it: VALUE.relativize(it, mend=True), TEXTS),
    "__format__": (VALUE.__format__, {"str"}),
    "<": (lambda it: VALUE < it, {"a value"}),
    ">=": (lambda it: VALUE >= it, {"a value"}),
    "decode": (decode, {"str"}),
    "decode, component": (lambda it: decode("a", it), {"component", "int"}),
    "encode": (encode, {"str", "bytes", "bytearray", "memoryview"}),
    "encode, component": (lambda it: encode("a", it), {"component", "int"}),
    "encode, kept": (
        lambda it: encode(it, keep_encoded=True),
        {"str", "bytes", "bytearray", "memoryview"},
    ),
    "batch.parse": (batch.parse, ITERABLES),
    "batch.parse, a text": (lambda it: batch.parse([it]), TEXTS),
    "batch.parse, kind": (lambda it: batch.parse(["a:b"], it), CLASSES),
    "batch.normalize": (batch.normalize, ITERABLES),
    "batch.normalize, a text": (lambda it: batch.normalize(["a:b", it]), TEXTS),
    "batch.normalize, kind": (lambda it: batch.normalize([], it), CLASSES),
    "batch.is_valid": (batch.is_valid, ITERABLES),
    "batch.is_valid, a text": (lambda it: batch.is_valid(["a:b", it]), TEXTS),
    "batch.is_valid, kind": (lambda it: batch.is_valid([], it), CLASSES),
    "batch.to_uri": (batch.to_uri, ITERABLES),
    "batch.to_uri, a text": (lambda it: batch.to_uri([it]), TEXTS),
    # (the kinds of this table are URIs, of which no URI is made)
    "batch.to_uri, kind": (lambda it: batch.to_uri([], it), set()),
    "batch.query": (batch.query, ITERABLES),
    "batch.query, a text": (lambda it: batch.query([it]), TEXTS),
    "batch.query, kind": (lambda it: batch.query([], it), CLASSES),
    "batch.mend": (batch.mend, ITERABLES),
    "batch.mend, a text": (lambda it: batch.mend([it]), TEXTS),
    "batch.mend, kind": (lambda it: batch.mend([], it), CLASSES),
    "batch.mend_link": (batch.mend_link, ITERABLES),
    "batch.mend_link, a text": (lambda it: batch.mend_link([it]), TEXTS),
    "batch.mend_link, kind": (lambda it: batch.mend_link([], it), CLASSES),
    "batch.parse, mended": (lambda it: batch.parse([it], mend=True), TEXTS),
    "batch.parse, mended, kind": (lambda it: batch.parse([], it, mend=True), CLASSES),
    "batch.join_links": (lambda it: batch.join_links(it, []), {"a value", "an IRI"}),
    "batch.join_links, links": (lambda it: batch.join_links(VALUE, it), ITERABLES),
    "batch.join_links, a link": (lambda it: batch.join_links(VALUE, [it]), TEXTS),
    "batch.resolve": (lambda it: batch.resolve(it, []), {"a value", "an IRI"}),
    "batch.resolve, references": (lambda it: batch.resolve(VALUE, it), ITERABLES),
    "batch.resolve, a text": (lambda it: batch.resolve(VALUE, [it]), TEXTS),
    "batch.relativize": (lambda it: batch.relativize(it, []), {"a value", "an IRI"}),
    "batch.relativize, targets": (lambda it: batch.relativize(VALUE, it), ITERABLES),
    "batch.relativize, a text": (lambda it: batch.relativize(VALUE, [it]), TEXTS),
    "batch.component": (lambda it: batch.component(it, "path"), ITERABLES),
    "batch.component, a text": (lambda it: batch.component([it], "path"), TEXTS),
    "batch.component, name": (lambda it: batch.component([], it), {"str"}),
    "batch.component, kind": (lambda it: batch.component([], "path", it), CLASSES),
    "batch.column": (batch.column, ITERABLES),
    "batch.column, a text": (lambda it: batch.column([it]), TEXTS),
    "Column, data": (lambda it: batch.Column(it, OFFSETS, b"\1"), BUFFERS),
    "Column, offsets": (lambda it: batch.Column(DATA, it, b"\1"), BUFFERS),
    "Column, validity": (lambda it: batch.Column(DATA, OFFSETS, it), BUFFERS),
    "Column, index": (lambda it: MADE[it], {*INDICES, "slice"}),
    "urlsplit": (urlsplit, {"str"}),
    "urlsplit, scheme": (lambda it: urlsplit("//a", it), {"str"}),
    "urljoin, base": (lambda it: urljoin(it, "a"), {"str"}),
    "urljoin": (lambda it: urljoin("a:/", it), {"str"}),
    **{it: (getattr(fluent_uri.parse, it), {"str"}) for it in
       ["urlparse", "urldefrag", "unquote", "unquote_plus", "parse_qs", "parse_qsl"]},
    "parse_qs, separator": (
        lambda it: fluent_uri.parse.parse_qs("a=b", separator=it),
        {"str"},
    ),
    "quote": (fluent_uri.parse.quote, {"str", "bytes", "bytearray", "memoryview"}),
    "quote_plus": (fluent_uri.parse.quote_plus, {"str", "bytes", "bytearray", "memoryview"}),
    "quote, safe": (lambda it: fluent_uri.parse.quote("a", it), {"str", "bytes"}),
    "urlunsplit, a component": (
        lambda it: fluent_uri.parse.urlunsplit(["", "", it, "", ""]),
        {"str", "None"},
    ),
    "urlunparse, a component": (
        lambda it: fluent_uri.parse.urlunparse(["", "", "", "", it, ""]),
        {"str", "None"},
    ),
}
COLUMNS = {
    "mend_column": (lambda *a, **b: batch.mend_column(*a, **b), []),
    "mend_link_column": (lambda *a, **b: batch.mend_link_column(*a, **b), []),
    "normalize_column, mended": (lambda *a, **b: batch.normalize_column(*a, mend=True, **b), []),
    "is_valid_column": (lambda *a, **b: batch.is_valid_column(*a, **b), []),
    "query_column": (lambda *a, **b: batch.query_column(*a, **b), []),
    "relativize_column": (lambda *a, **b: batch.relativize_column(VALUE, *a, **b), []),
    "normalize_column": (lambda *a, **b: batch.normalize_column(*a, **b), []),
    "to_uri_column": (lambda *a, **b: batch.to_uri_column(*a, **b), []),
    "resolve_column": (lambda *a, **b: batch.resolve_column(VALUE, *a, **b), []),
    "component_column": (lambda *a, **b: batch.component_column(*a, **b), ["path"]),
}
for _name, (_call, _more) in COLUMNS.items():
    for _what, _right, _given in [
        ("data", {"None", *BUFFERS}, lambda it, call, more: call(it, OFFSETS, *more)),
        ("offsets", {"None", *BUFFERS}, lambda it, call, more: call(DATA, it, *more)),
        (
            "validity",
            {"None", *BUFFERS},
            lambda it, call, more: call(DATA, OFFSETS, *more, validity=it),
        ),
        ("start", INDICES, lambda it, call, more: call(DATA, OFFSETS, *more, start=it)),
        (
            "count",
            {"None", *INDICES},
            lambda it, call, more: call(DATA, OFFSETS, *more, count=it),
        ),
    ]:
        CALLS[f"{_name}, {_what}"] = (
            lambda it, given=_given, call=_call, more=_more: given(it, call, more),
            _right,
        )
CALLS["normalize_column, kind"] = (
    lambda it: batch.normalize_column(DATA, OFFSETS, it),
    CLASSES,
)
CALLS["mend_column, kind"] = (lambda it: batch.mend_column(DATA, OFFSETS, it), CLASSES)
CALLS["mend_link_column, kind"] = (
    lambda it: batch.mend_link_column(DATA, OFFSETS, it),
    CLASSES,
)
CALLS["is_valid_column, kind"] = (
    lambda it: batch.is_valid_column(DATA, OFFSETS, it),
    CLASSES,
)
CALLS["query_column, kind"] = (lambda it: batch.query_column(DATA, OFFSETS, it), CLASSES)
CALLS["relativize_column, base"] = (
    lambda it: batch.relativize_column(it, DATA, OFFSETS),
    {"a value", "an IRI"},
)
CALLS["component_column, kind"] = (
    lambda it: batch.component_column(DATA, OFFSETS, "path", it),
    CLASSES,
)
CALLS["component_column, name"] = (lambda it: batch.component_column(DATA, OFFSETS, it), {"str"})
# (the kinds of this table are URIs, of which no URI is made)
CALLS["to_uri_column, kind"] = (lambda it: batch.to_uri_column(DATA, OFFSETS, it), set())
CALLS["resolve_column, base"] = (
    lambda it: batch.resolve_column(it, DATA, OFFSETS),
    {"a value", "an IRI"},
)


class Types(unittest.TestCase):
    def test_each_call_with_each_type(self):
        for name, (call, right) in CALLS.items():
            self.assertLessEqual(right, set(wrong()), name)
            for kind in wrong():
                with self.subTest(call=name, type=kind):
                    if kind not in right:
                        with self.assertRaises(TypeError):
                            call(wrong()[kind])
                        continue
                    try:
                        call(wrong()[kind])
                    except (ValueError, IndexError):
                        pass

    def test_each_public_call_is_in_the_table(self):
        named = " ".join(CALLS)
        for name in batch.__all__:
            self.assertIn(name, named)
        for kind in KINDS:
            for name in dir(kind):
                it = getattr(kind, name)
                if name[0] != "_" and callable(it) and name not in WITHOUT_ARGUMENT:
                    self.assertIn(name, named)

    def test_wrong_values_of_a_right_type(self):
        for call in [
            lambda: decode("a", 2**32 + 2),
            lambda: decode("a", -1),
            lambda: decode("a", 5),
            lambda: decode("a", Component.DATA),
            lambda: encode("a", 2**32),
            lambda: encode("a", 7),
            lambda: batch.component([], "data"),
            lambda: batch.component([], "SCHEME"),
            lambda: batch.component([], ""),
            lambda: batch.normalize_column(DATA, b"123456"),
            lambda: batch.normalize_column(DATA, b"12345678", large=True, count=1),
            lambda: batch.normalize_column(DATA, memoryview(b"1234").cast("H")),
            lambda: batch.normalize_column(DATA, array("d", [0, 3])),
            lambda: batch.normalize_column(DATA, (fluent_uri._native.ctypes.c_double * 2)()),
            lambda: batch.normalize_column(DATA, memoryview(OFFSETS)[::-1]),
            lambda: batch.normalize_column(DATA, memoryview(bytes(8)).cast("B", [2, 4])),
            lambda: batch.normalize_column(array("I", [1]), OFFSETS),
            lambda: batch.normalize_column(DATA, OFFSETS, validity=array("I", [1])),
            lambda: batch.normalize_column(DATA, OFFSETS, validity=b""),
            lambda: batch.normalize_column(DATA, OFFSETS, start=-1),
            lambda: batch.normalize_column(DATA, OFFSETS, start=1, count=1),
            lambda: batch.normalize_column(DATA, OFFSETS, count=-1),
            lambda: batch.normalize_column(DATA, OFFSETS, count=2**70),
            lambda: batch.Column(DATA, array("I"), b""),
            lambda: batch.Column(DATA, array("I", range(10)), b"\1"),
        ]:
            with self.assertRaises(ValueError):
                call()

    def test_a_surrogate_has_its_index(self):
        for call, text in [(encode, "é\ud800"), (decode, "é\ud800"), (IriRef, "é\ud800")]:
            with self.assertRaises(ParseError) as caught:
                call(text)
            error = caught.exception
            self.assertEqual((error.kind.name, error.index, error.char_index), ("NOT_UTF8", 2, 1))


if __name__ == "__main__":
    unittest.main()
