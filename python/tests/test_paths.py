"""The segments of paths and the pairs of queries, and texts that are encoded in part."""

import copy
import pickle
import random
import unittest
import urllib.parse

from fluent_uri import Component, DotSegmentError, Iri, IriRef, ParseError, ParseErrorKind
from fluent_uri import Uri, UriRef, decode, encode

# RFC 3986, section 3.3: a path is segments between `/`, and begins with one after an authority.
SEGMENTS = [
    ("x:", ()),
    ("x:a", ("a",)),
    ("x:/", ("",)),
    ("x:/a", ("a",)),
    ("x:/a/", ("a", "")),
    ("x:a/b;c=1//d", ("a", "b;c=1", "", "d")),
    ("http://h", ()),
    ("http://h//", ("", "")),
    ("urn:example:a", ("example:a",)),
    ("http://h/a%2Fb/./..?c/d#e/f", ("a%2Fb", ".", "..")),
]
# A base, a segment, and the base with that segment at the end and in place of the last one.
JOINED = [
    ("http://h", "a", "http://h/a", "http://h/a"),
    ("http://h/", "a", "http://h/a", "http://h/a"),
    ("http://h/b", "a", "http://h/b/a", "http://h/a"),
    ("http://h/b/", "a", "http://h/b/a", "http://h/b/a"),
    ("http://h/b//", "a", "http://h/b//a", "http://h/b//a"),
    ("http://h/b?c#d", "a", "http://h/b/a", "http://h/a"),
    ("http://u@h:1/b/c", "", "http://u@h:1/b/c/", "http://u@h:1/b/"),
    ("http://h/b", "/?#%", "http://h/b/%2F%3F%23%25", "http://h/%2F%3F%23%25"),
    ("http://h/b", "a b:é", "http://h/b/a%20b%3A%C3%A9", "http://h/a%20b%3A%C3%A9"),
    ("http://h/b", "...", "http://h/b/...", "http://h/..."),
    ("http://h/b", "%2e%2e", "http://h/b/%252e%252e", "http://h/%252e%252e"),
    ("x:", "a:b", "x:a%3Ab", "x:a%3Ab"),
    ("x:/", "", "x:/", "x:/"),
    ("urn:a", "b", "urn:a/b", "urn:b"),
]
PARENTS = [
    ("http://h/a/b?c#d", "http://h/a"),
    ("http://h/a/", "http://h/a"),
    ("http://h/a", "http://h/"),
    ("http://h/", "http://h/"),
    ("http://h", "http://h"),
    ("http://h//", "http://h/"),
    ("http://h//a", "http://h/"),
    ("file:/a", "file:/"),
    ("x:/.//a", "x:/./"),
    ("x:a/b", "x:a"),
    ("x:a", "x:"),
]
QUERIES = [
    *("", "&", "a", "a=", "=a", "=", "a=1&a=2", "a=b=c", "&a=b&&c&", "a;b=c", "%C3%A9=%ff%F0%9F"),
    *("a+b=c%2Bd", "%26=%3D", "a=%E2%82&b", "%41%zz"[:3], "é=ü", "name=ferret&page=2%263"),
]


class Segments(unittest.TestCase):
    def test_as_they_are_and_decoded(self):
        for text, wanted in SEGMENTS:
            for kind in (Uri, UriRef, Iri, IriRef):
                value = kind(text)
                self.assertEqual(value.encoded_segments, wanted, text)
                decoded = tuple(decode(it).decode() for it in wanted)
                self.assertEqual(value.segments, decoded)
                self.assertEqual(value.name, decoded[-1] if decoded else "")
                if wanted:
                    root = "/" if value.path.startswith("/") else ""
                    self.assertEqual(root + "/".join(wanted), value.path)
        self.assertEqual(Uri("x:/%FFa%C3").segments, ("\ufffda\ufffd",))
        self.assertEqual(IriRef("é/%C3%A9").segments, ("é", "é"))

    def test_joined(self):
        for text, segment, joined, renamed in JOINED:
            for kind in (Uri, UriRef, Iri, IriRef):
                value = kind(text)
                self.assertEqual(str(value / segment), joined)
                self.assertEqual(str(value.with_name(segment)), renamed)
                self.assertIs(type(value / segment), kind)
                for made in (value / segment, value.with_name(segment)):
                    self.assertEqual(made.name, segment)
                    self.assertEqual(made.authority, value.authority)
                    self.assertIsNone(made.query)
        self.assertEqual(str(UriRef("") / "a:b"), "a%3Ab")
        self.assertEqual(str(UriRef("//h") / "a"), "//h/a")
        self.assertEqual(str(UriRef("a").with_name("b")), "b")

    def test_dot_segments(self):
        for value in (Uri("http://h/a"), UriRef(""), IriRef("é")):
            for segment in (".", ".."):
                for call in (value.__truediv__, value.with_name):
                    with self.assertRaises(DotSegmentError) as caught:
                        call(segment)
                    self.assertEqual(str(caught.exception), "segment is `.` or `..`")
        error = caught.exception
        for made in (copy.copy(error), pickle.loads(pickle.dumps(error))):
            self.assertEqual((type(made), str(made)), (DotSegmentError, str(error)))
        self.assertTrue(issubclass(DotSegmentError, ValueError))

    def test_a_segment_is_a_str(self):
        for other in (None, 5, b"a", UriRef("a"), ["a"]):
            with self.assertRaises(TypeError):
                Uri("http://h/") / other
            with self.assertRaises(TypeError):
                Uri("http://h/").with_name(other)
        with self.assertRaises(ParseError):
            Uri("http://h/") / "\ud800"

    def test_parents(self):
        for text, wanted in PARENTS:
            for kind in (Uri, UriRef, Iri, IriRef):
                self.assertEqual(kind(text).parent, kind(wanted))
        self.assertEqual(UriRef("a/b").parent.parent, UriRef(""))
        self.assertEqual(UriRef("./a:b").parent, UriRef("."))

    def test_a_subclass(self):
        class Link(Uri):
            pass

        link = Link("http://h/a?b")
        for made in (link / "c", link.parent, link.with_name("c"), link.with_query(None)):
            self.assertIs(type(made), Link)


class Pairs(unittest.TestCase):
    def test_as_by_urllib(self):
        for query in QUERIES:
            wanted = urllib.parse.parse_qsl(query, keep_blank_values=True)
            value = IriRef(f"?{query}")
            self.assertEqual(value.query_pairs(plus_is_space=True), wanted, query)
            plain = urllib.parse.parse_qsl(query.replace("+", "%2B"), keep_blank_values=True)
            self.assertEqual(value.query_pairs(), plain, query)
        self.assertEqual(Uri("x:a").query_pairs(), [])

    def test_there_and_back(self):
        dice = random.Random(7)
        characters = "ab&=+%# ?/;\0é漢𐌀"
        for _ in range(300):
            pairs = [
                tuple("".join(dice.choices(characters, k=dice.randrange(4))) for _ in "ab")
                for _ in range(dice.randrange(4))
            ]
            for plus in (False, True):
                for text in ("http://h/a", "http://h/a?b#c?d"):
                    made = Uri(text).with_query(pairs, plus_is_space=plus)
                    self.assertEqual(made.query_pairs(plus_is_space=plus), pairs)
                    self.assertEqual(made.fragment, Uri(text).fragment)
                    self.assertEqual(made.path, "/a")
                    wanted = urllib.parse.urlencode(
                        pairs, quote_via=urllib.parse.quote_plus if plus else urllib.parse.quote,
                        safe="",
                    )
                    self.assertEqual(made.query, wanted)

    def test_with_query(self):
        uri = Uri("http://h/a?b#c")
        self.assertEqual(str(uri.with_query(None)), "http://h/a#c")
        self.assertEqual(str(uri.with_query([])), "http://h/a?#c")
        self.assertEqual(str(uri.with_query({"a b": "&"})), "http://h/a?a%20b=%26#c")
        self.assertEqual(str(uri.with_query(iter([["a", "+ "]]), plus_is_space=True)),
                         "http://h/a?a=%2B+#c")
        self.assertEqual(str(Iri("http://é/").with_query([("é", "")])), "http://é/?%C3%A9=")

    def test_wrong_pairs(self):
        wrong = [5, "a=b", b"a=b", ["ab"], [("a",)], [("a", "b", "c")], [("a", 1)], [(None, "b")],
                 [("a", b"b")], [5], {"a": 1}, [{"a", "b"}]]
        for it in wrong:
            with self.assertRaises(TypeError, msg=repr(it)):
                Uri("x:a").with_query(it)
        with self.assertRaises(ParseError):
            Uri("x:a").with_query([("a", "\ud800")])


class KeepEncoded(unittest.TestCase):
    def test_what_is_encoded_stays(self):
        for text, component, wanted in [
            ("a%20b c/d?e", Component.PATH, "a%20b%20c/d%3Fe"),
            ("a=%7e&50%", Component.QUERY, "a=%7e&50%25"),
            ("%2f/é%4", Component.DATA, "%2f%2F%C3%A9%254"),
            ("%%41", Component.FRAGMENT, "%25%41"),
            ("u:p%40@h", Component.USERINFO, "u:p%40%40h"),
            ("[::1]%5B", Component.REG_NAME, "%5B%3A%3A1%5D%5B"),
            ("", Component.DATA, ""),
        ]:
            self.assertEqual(encode(text, component, keep_encoded=True), wanted)
            self.assertEqual(encode(wanted, component, keep_encoded=True), wanted)
            self.assertEqual(encode(text.encode(), component, keep_encoded=True), wanted)

    def test_a_text_without_octets_is_encoded_as_ever(self):
        text = "".join(map(chr, range(128))).replace("%", "") + "é漢𐌀"
        for it in Component:
            self.assertEqual(encode(text, it, keep_encoded=True), encode(text, it))
        self.assertEqual(encode("a%20", keep_encoded=False), "a%2520")

    def test_what_is_rejected(self):
        for data, index in [("a\ud800", 1), (b"a\xff", 1), (b"\xc3", 0)]:
            with self.assertRaises(ParseError) as caught:
                encode(data, keep_encoded=True)
            error = caught.exception
            self.assertEqual((error.kind, error.index), (ParseErrorKind.NOT_UTF8, index))


class Normal(unittest.TestCase):
    """A value that is its own normal form is returned itself."""

    def test_the_value_itself(self):
        for text in ("http://h/a/b?c=..#d", "http://h:8080/a", "http://h/%20", "x:/.well-known/a",
                     "http://[::1]/", "http://h/" + "a/" * 2000, "http://h/%2F..", "x:%00%7F?%3D",
                     "http://u%3A@h%5B/" + "%2F/" * 2000):
            for kind in (Uri, UriRef, Iri, IriRef):
                value = kind(text)
                self.assertIs(value.normalize(), value)
                _ = value.host
                self.assertIs(value.normalize(), value)

    def test_octets_past_ascii(self):
        for kind in (Uri, UriRef):
            value = kind("http://%C3%A9/%E6%BC%A2")
            self.assertIs(value.normalize(), value)
        for kind in (Iri, IriRef):
            self.assertEqual(str(kind("http://%C3%A9/%E6%BC%A2").normalize()), "http://é/漢")
            value = kind("http://h/%FF")
            self.assertIs(value.normalize(), value)

    def test_another_value(self):
        for text, wanted in [("HTTP://h/", "http://h/"), ("http://H/", "http://h/"),
                             ("x:/a/./b", "x:/a/b"), ("http://h:80/", "http://h/"),
                             ("x:/%7e", "x:/~"), ("x:%2f", "x:%2F"), ("x:/%2F/.", "x:/%2F/"),
                             ("x:/" + "a/" * 2000 + "..", None)]:
            for kind in (Uri, UriRef, Iri, IriRef):
                made = kind(text).normalize()
                self.assertEqual(str(made), wanted or "x:/" + "a/" * 1999)
                self.assertEqual(made.path, kind(str(made)).path)
                self.assertIs(made.normalize(), made)


if __name__ == "__main__":
    unittest.main()
