"""The four kinds: what a value is, and what a call raises."""

import copy
import inspect
import pathlib
import pickle
import sys
import unittest

import fluent_uri
from fluent_uri import (
    Component,
    HostKind,
    Iri,
    IriRef,
    ParseError,
    ParseErrorKind,
    ResolveError,
    ResolveErrorKind,
    Uri,
    UriRef,
    decode,
    encode,
)

MATCHED = """
match value:
    case Uri(scheme, authority, path, query, fragment, host=host):
        found = scheme, authority, path, query, fragment, host
"""
NAMES = ["scheme", "authority", "userinfo", "host", "port", "path", "query", "fragment"]
KINDS = [Uri, UriRef, Iri, IriRef]


def components(value):
    return [getattr(value, it) for it in NAMES]


class Values(unittest.TestCase):
    def test_components(self):
        text = "HTTP://user@Example.com:80/a/./b?x=1#top"
        authority = ["user@Example.com:80", "user", "Example.com", "80"]
        wanted = ["HTTP", *authority, "/a/./b", "x=1", "top"]
        for kind in KINDS:
            self.assertEqual(components(kind.parse(text)), wanted)

    def test_absent_components_are_none_and_empty_ones_are_not(self):
        absent = components(UriRef.parse(""))
        self.assertEqual(absent, [None, None, None, None, None, "", None, None])
        empty = components(UriRef.parse("//@:?#"))
        self.assertEqual(empty, [None, "@:", "", "", "", "", "", ""])

    def test_components_past_ascii(self):
        value = Iri.parse("x://ü@é:1/漢?𐌀#ä")
        wanted = ["x", "ü@é:1", "ü", "é", "1", "/漢", "𐌀", "ä"]
        self.assertEqual(components(value), wanted)
        made = Iri.parse("x://a/").resolve("//ü@é:1/漢?𐌀#ä")
        self.assertEqual(components(made), wanted)

    def test_components_of_what_the_library_made(self):
        normal = Uri.parse("HTTP://Example.com:80/a/./b").normalize()
        wanted = ["http", "example.com", None, "example.com", None, "/a/b", None, None]
        self.assertEqual(components(normal), wanted)

    def test_host_kinds(self):
        for host, kind in [
            ("a", HostKind.REG_NAME),
            ("", HostKind.REG_NAME),
            ("1.2.3.4", HostKind.IPV4),
            ("[::1]", HostKind.IPV6),
            ("[v1.a]", HostKind.IPV_FUTURE),
        ]:
            self.assertIs(UriRef.parse(f"//{host}").host_kind, kind)
        self.assertIsNone(UriRef.parse("a").host_kind)

    def test_port_numbers(self):
        for port, number in [("", None), (":", None), (":080", 80), (":65535", 65535), (":0", 0)]:
            self.assertEqual(UriRef.parse(f"//h{port}").port_number, number)
        for port in ["65536", "9" * 100_000]:
            with self.assertRaises(ValueError):
                _ = UriRef.parse(f"//h:{port}").port_number
        self.assertEqual(UriRef.parse("//h:" + "0" * 100_000).port_number, 0)

    def test_str_repr_and_bytes(self):
        value = Iri.parse("http://é/")
        self.assertEqual(str(value), "http://é/")
        self.assertEqual(repr(value), "Iri('http://é/')")
        self.assertEqual(bytes(value), "http://é/".encode())
        self.assertEqual(eval(repr(value)), value)
        self.assertEqual(f"{value}|{value:>12}", "http://é/|   http://é/")

    @unittest.skipIf(sys.version_info < (3, 10), "match is of Python 3.10")
    def test_matched(self):
        names = {"Uri": Uri, "value": Uri.parse("http://u@h:80/a?b")}
        exec(MATCHED, names)
        self.assertEqual(names["found"], ("http", "u@h:80", "/a", "b", None, "h"))

    def test_equal_hashed_and_ordered_by_text_within_a_kind(self):
        a, b = Uri.parse("a:a"), Uri.parse("a:b")
        self.assertEqual(a, Uri("a:" + "a"))
        self.assertEqual(len({a, Uri.parse("a:a"), b}), 2)
        self.assertTrue(a < b and a <= b and b > a and b >= a and a != b)
        self.assertEqual(sorted([b, a]), [a, b])
        self.assertNotEqual(a, Iri.parse("a:a"))
        self.assertNotEqual(a, "a:a")
        with self.assertRaises(TypeError):
            _ = a < Iri.parse("a:b")

    def test_immutable(self):
        value = Uri.parse("a:b")
        for name in ["path", "extra", "host_kind"]:
            with self.assertRaises(AttributeError):
                setattr(value, name, "x")
        with self.assertRaises(AttributeError):
            del value.path

    def test_copied_and_pickled(self):
        for value in [Uri.parse("http://a/b"), Iri.parse("http://é/").normalize()]:
            for made in [copy.copy(value), copy.deepcopy(value), pickle.loads(pickle.dumps(value))]:
                self.assertEqual(made, value)
                self.assertIs(type(made), type(value))
                self.assertEqual(components(made), components(value))

    def test_a_value_is_made_by_its_class_too(self):
        self.assertEqual(Uri("a:b"), Uri.parse("a:b"))
        with self.assertRaises(ParseError):
            Uri("a b")

    def test_a_subclass(self):
        class Link(Uri):
            def name(self):
                return self.path.rpartition("/")[2]

        link = Link.parse("http://a/b/%7ec")
        self.assertEqual(link.name(), "%7ec")
        self.assertIs(type(link.normalize()), Link)
        self.assertEqual(link.normalize().name(), "~c")

    def test_a_text_of_a_subclass_of_str(self):
        class Text(str):
            def __str__(self):
                return "other"

        value = Uri.parse(Text("a:b"))
        self.assertEqual((str(value), type(str(value)), value.path), ("a:b", str, "b"))

    def test_long_texts(self):
        text = "http://a/" + "%7e" * 100_000 + "?é"
        value = Iri.parse(text)
        self.assertEqual(value.normalize().path, "/" + "~" * 100_000)
        self.assertEqual(value.normalize().query, "é")
        self.assertEqual(value.to_uri().query, "%C3%A9")
        self.assertEqual(len(str(Iri.parse("http://b/").resolve(text))), len(text))

    def test_results_about_as_long_as_the_room_that_is_at_hand(self):
        for length in [*range(2040, 2060), *range(4085, 4105), 2148, 5000]:
            text = "x:" + "a" * (length - 3)
            self.assertEqual(str(Uri.parse(f"{text}%7e").normalize()), f"{text}~")
            self.assertEqual(str(Uri.parse("x:/b").resolve(f"{text}%7e")), f"{text}%7e")
            self.assertEqual(encode(b"a" * length), "a" * length)

    def test_a_text_that_holds_nul(self):
        with self.assertRaises(ParseError) as caught:
            Uri.parse("a:\0b")
        self.assertEqual(caught.exception.index, 2)


class Calls(unittest.TestCase):
    def test_normalize(self):
        normal = Uri.parse("HTTP://User@Example.COM:80/%7Efoo/../b/./c?%3a#%41").normalize()
        self.assertEqual(str(normal), "http://User@example.com/b/c?%3A#A")
        self.assertEqual(normal.normalize(), normal)

    def test_relativize(self):
        base = Uri.parse("http://a/b/c/d")
        for target in ["http://a/b/x/y", Uri.parse("http://a/b/x/./y")]:
            reference = base.relativize(target)
            self.assertEqual((type(reference), str(reference)), (UriRef, "../x/y"))
            self.assertEqual(str(base.resolve(reference)), "http://a/b/x/y")
        reference = Iri.parse("http://a/").relativize("http://a/é")
        self.assertEqual((type(reference), str(reference)), (IriRef, "é"))
        for target in ["é", "a b", "/c"]:
            with self.assertRaises(ParseError):
                base.relativize(target)

    def test_resolve(self):
        base = Uri.parse("http://a/b/c/d;p?q")
        for reference in ["../g", UriRef.parse("../g")]:
            target = base.resolve(reference)
            self.assertEqual(target, Uri.parse("http://a/b/g"))
        self.assertEqual(str(base.resolve("../%7E", normalize=True)), "http://a/b/~")
        self.assertEqual(str(Iri.parse("http://a/").resolve("é")), "http://a/é")

    def test_to_uri(self):
        uri = Uri.parse("x://%C3%A9/%C3%BC?%C3%B6#%C3%A4")
        self.assertEqual(Iri.parse("x://é/ü?ö#ä").to_uri(), uri)
        self.assertEqual(IriRef.parse("é").to_uri(), UriRef.parse("%C3%A9"))

    def test_with_fragment(self):
        value = UriRef.parse("a?b#c")
        self.assertEqual(str(value.with_fragment("d?/")), "a?b#d?/")
        self.assertEqual(str(value.with_fragment("")), "a?b#")
        self.assertEqual(str(value.with_fragment(None)), "a?b")
        for fragment in ["#", "é", "%4"]:
            with self.assertRaises(ParseError):
                value.with_fragment(fragment)

    def test_decode_and_encode(self):
        self.assertEqual(decode("a%20b+%FF"), b"a b+\xff")
        self.assertEqual(decode("é"), "é".encode())
        with self.assertRaises(ParseError):
            decode("a?")
        self.assertEqual(decode("a?", Component.QUERY), b"a?")
        self.assertEqual(encode("a b/é"), "a%20b%2F%C3%A9")
        self.assertEqual(encode(b"\xff/", Component.PATH), "%FF/")
        self.assertEqual(decode(encode(bytes(range(256)))), bytes(range(256)))
        with self.assertRaises(ValueError):
            decode("a", Component.DATA)

    def test_an_error_of_a_component_has_its_index(self):
        octet, char = ParseErrorKind.INVALID_PCT_ENCODED_OCTET, ParseErrorKind.UNEXPECTED_CHAR
        for text, component, wanted in [
            ("a/%zz", Component.PATH, (octet, 2, 2)),
            ("ab c", Component.PATH, (char, 2, 2)),
            ("é?", Component.PATH, (char, 2, 1)),
            ("?%", Component.QUERY, (octet, 1, 1)),
        ]:
            with self.assertRaises(ParseError) as caught:
                decode(text, component)
            error = caught.exception
            self.assertEqual((error.kind, error.index, error.char_index), wanted)


class Errors(unittest.TestCase):
    def raised(self, call, *words):
        with self.assertRaises(ParseError) as caught:
            call(*words)
        error = caught.exception
        return error.kind, error.index, error.char_index

    def test_kinds_and_indices(self):
        for kind, text, wanted in [
            (Uri, "http://a b/", (ParseErrorKind.UNEXPECTED_CHAR, 8, 8)),
            (Uri, "", (ParseErrorKind.UNEXPECTED_CHAR, 0, 0)),
            (Uri, "http://é/", (ParseErrorKind.UNEXPECTED_CHAR, 7, 7)),
            (Iri, "http://é/ ", (ParseErrorKind.UNEXPECTED_CHAR, 10, 9)),
            (Uri, "http://a/%zz", (ParseErrorKind.INVALID_PCT_ENCODED_OCTET, 9, 9)),
            (Iri, "http://é/%zz", (ParseErrorKind.INVALID_PCT_ENCODED_OCTET, 10, 9)),
            (Uri, "http://[1:2]/", (ParseErrorKind.INVALID_IPV6_ADDR, 8, 8)),
            (Iri, "é\ud800", (ParseErrorKind.NOT_UTF8, 2, 1)),
            (Iri, "http://é/\udfff", (ParseErrorKind.NOT_UTF8, 10, 9)),
        ]:
            self.assertEqual(self.raised(kind.parse, text), wanted, text)

    def test_messages(self):
        for text, said in [
            ("http://a b/", "unexpected character at index 8"),
            ("http://é/ ", "unexpected character at index 10 (character 9)"),
        ]:
            with self.assertRaises(ParseError) as caught:
                Iri.parse(text)
            self.assertEqual(str(caught.exception), said)

    def test_an_error_is_pickled(self):
        with self.assertRaises(ParseError) as caught:
            Iri.parse("http://é/ ")
        made = pickle.loads(pickle.dumps(caught.exception))
        self.assertEqual((made.kind, made.index, made.char_index, str(made)),
                         (ParseErrorKind.UNEXPECTED_CHAR, 10, 9, str(caught.exception)))

    def test_an_error_of_a_reference_has_its_index_there(self):
        wanted = (ParseErrorKind.UNEXPECTED_CHAR, 1, 1)
        self.assertEqual(self.raised(Uri.parse("http://a/b").resolve, "g g"), wanted)
        wanted = (ParseErrorKind.UNEXPECTED_CHAR, 6, 2)
        self.assertEqual(self.raised(Iri.parse("http://a/b").resolve, "漢字 "), wanted)
        wanted = (ParseErrorKind.NOT_UTF8, 1, 1)
        self.assertEqual(self.raised(Uri.parse("http://a/b").resolve, "g\ud800"), wanted)

    def test_references_without_a_target(self):
        for base, reference, kind in [
            ("foo:bar#x", "g", ResolveErrorKind.INVALID_REFERENCE_AGAINST_OPAQUE_BASE),
            ("foo:bar", "g", ResolveErrorKind.INVALID_REFERENCE_AGAINST_OPAQUE_BASE),
        ]:
            for normalize in [False, True]:
                with self.assertRaises(ResolveError) as caught:
                    Uri.parse(base).resolve(reference, normalize=normalize)
                self.assertIs(caught.exception.kind, kind)
                self.assertIsInstance(caught.exception, ValueError)

    def test_other_types(self):
        for given in [None, 5, b"a:b", ["a:b"]]:
            for call in [Uri.parse, Uri.parse("a:b").resolve, Uri.parse("a:b").relativize, decode]:
                with self.assertRaisesRegex(TypeError, "str, not "):
                    call(given)
        with self.assertRaises(TypeError):
            Uri()

    def test_names(self):
        self.assertEqual(ParseError.__module__, "fluent_uri")
        project = pathlib.Path(__file__).resolve().parents[1] / "pyproject.toml"
        version = f'version = "{fluent_uri.__version__}"'
        self.assertIn(version, project.read_text(encoding="utf-8").splitlines())
        self.assertGreater(fluent_uri.normal_version, 0)
        for name in fluent_uri.__all__:
            self.assertTrue(hasattr(fluent_uri, name))

    @unittest.skipIf(sys.version_info < (3, 10), "an older Python shows none of a compiled class")
    def test_signatures(self):
        for call in [Uri, Uri.parse]:
            self.assertEqual(list(inspect.signature(call).parameters), ["text"])


if __name__ == "__main__":
    unittest.main()
