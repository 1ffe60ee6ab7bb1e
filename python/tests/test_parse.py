"""Texts taken apart, put together and joined, beside those calls of `urllib.parse`."""

import pathlib
import pickle
import random
import unicodedata
import unittest
import urllib.parse

from fluent_uri import Iri, IriRef, ParseError, ResolveError
from fluent_uri.parse import (
    DefragResult,
    ParseResult,
    SplitResult,
    urldefrag,
    urljoin,
    urlparse,
    urlsplit,
    urlunparse,
    urlunsplit,
)

LIST = pathlib.Path(__file__).resolve().parents[2] / "tools" / "bench" / "urls.txt"
URLS = [it for it in LIST.read_text(encoding="utf-8").split("\n") if it and it[0] != "#"]
NAMES = "scheme netloc path query fragment username password hostname port".split()
PAIRS = [(urlsplit, urllib.parse.urlsplit), (urlparse, urllib.parse.urlparse)]


class Split(unittest.TestCase):
    def test_urls_of_the_list_split_as_by_urllib(self):
        for url in URLS:
            for call, other in PAIRS:
                ours, theirs = call(url), other(url)
                self.assertEqual(ours, tuple(theirs))
                for name in NAMES:
                    self.assertEqual(getattr(ours, name), getattr(theirs, name), (url, name))
                self.assertEqual(ours.geturl(), theirs.geturl())
            self.assertEqual(urldefrag(url), tuple(urllib.parse.urldefrag(url)))
            self.assertEqual(urlunsplit(urlsplit(url)), urllib.parse.urlunsplit(urlsplit(url)))

    def test_other_texts_split_as_by_urllib(self):
        for text in [
            *("", "a", "a/b?c#d", "?q", "#f", "//h", "//h:80/x", "mailto:a@b.c", "file:///etc/x"),
            *("HTTP://U:P@H.Example:80/?", "x://[::1]:5/", "//u@h", "//u:@h", "//:p@h", "é/ü?ö"),
            *("news:comp.lang", "x:a//b", "HTTP://EXAMPLE.com/%7e#"),
        ]:
            for call, other in PAIRS:
                for words in [("s",), ("http", False), ("", False)]:
                    ours, theirs = call(text, *words), other(text, *words)
                    self.assertEqual(ours, tuple(theirs), text)
                    for name in NAMES:
                        self.assertEqual(getattr(ours, name), getattr(theirs, name), (text, name))
        self.assertEqual(urlsplit("x:80").path, "80")

    def test_without_fragments(self):
        for text in ["a#b?c", "a?b#c?d", "#", "//h#b?c", "http://h/p?#f", "x:p#?", "a#b/c;d"]:
            for call, other in PAIRS:
                self.assertEqual(
                    call(text, allow_fragments=False), tuple(other(text, allow_fragments=False))
                )

    def test_parameters(self):
        for text in ["http://a/b;c/d;e;f?g#h", "a;b", "x:a;b", "sip:u@h;p=1", ";", "a;", "tel:7;p"]:
            made = urlparse(text)
            self.assertEqual(made, tuple(urllib.parse.urlparse(text)))
            self.assertEqual(made.geturl(), urllib.parse.urlparse(text).geturl())
        self.assertEqual(urlparse("http://a/b;c").params, "c")

    def test_results_are_pickled_and_changed(self):
        for made in [urlsplit("http://u@h:1/p"), urlparse("http://u@h:1/p;q"), urldefrag("a#b")]:
            copied = pickle.loads(pickle.dumps(made))
            self.assertEqual((copied, type(copied)), (made, type(made)))
            self.assertEqual(type(made._replace(fragment="c")), type(made))
            self.assertEqual(made._replace(fragment="c").geturl().partition("#")[2], "c")
        self.assertEqual(urlsplit("//u@h")._replace(netloc="v@i:5").port, 5)

    def test_geturl(self):
        for text in ["http://a/b?c#d", "a", "", "file:///x", "x:////y", "////y", "mailto:a@b"]:
            self.assertEqual(urlsplit(urlsplit(text).geturl()), urlsplit(text), text)
        self.assertEqual(urlsplit("http://a?#").geturl(), "http://a")
        self.assertEqual(SplitResult("x", "", "//y", "", "").geturl(), "x:////y")
        for text in ["file:x", "file:", "file:///x", "file:x/y?z", "http:x", "http:/x", "x:y"]:
            self.assertEqual(urlsplit(text).geturl(), text)
        self.assertEqual(urlsplit("file:/x").geturl(), "file:///x")
        self.assertEqual(urlsplit("//h/x")._replace(path="y").geturl(), "//h/y")
        self.assertEqual(urlsplit("//h/x")._replace(path="").geturl(), "//h")

    def test_put_together(self):
        for words in [
            *(("http", "a", "/b", "c", "d"), ("", "", "", "", ""), ("http", "a", "b", None, None)),
            *(("x", None, "y", "", ""), ("", "h", "", "q", ""), ("file", "", "/a", "", "")),
        ]:
            self.assertEqual(urlunsplit(words), urllib.parse.urlunsplit(words))
            six = (*words[:3], "p;q", *words[3:])
            self.assertEqual(urlunparse(six), urllib.parse.urlunparse(six))
        self.assertEqual(urlunsplit(["", "", "//a", "", ""]), "////a")

    def test_a_component_that_would_become_another_one(self):
        for words, name in [
            (("http", "a", "/b?c", "", ""), "path"),
            (("http", "a", "/b#c", "", ""), "path"),
            (("http", "a", "/b", "c#d", ""), "query"),
            (("http", "a/b", "/c", "", ""), "netloc"),
            (("http:x", "", "y", "", ""), "scheme"),
            (("", "", "a:b", "", ""), "scheme"),
        ]:
            with self.assertRaisesRegex(ValueError, f"the {name} "):
                urlunsplit(words)
        for words in [("é", "", "", "", ""), ("", "a b", "", "", ""), ("", "", "", "", "#")]:
            with self.assertRaises(ParseError):
                urlunsplit(words)
        for words in [(), ("a", "b", "c", "d"), ("a",) * 6]:
            with self.assertRaises(ValueError):
                urlunsplit(words)
        with self.assertRaises(ValueError):
            urlunparse(("http", "a", "/b", "c/d?", "", ""))

    def test_defragged(self):
        for text in ["http://a/b#c", "a", "#", "", "x:?#é", "HTTP://a?#b"]:
            url, mark, fragment = text.partition("#")
            made = urldefrag(text)
            self.assertEqual(made, (url, fragment))
            self.assertEqual(made.geturl(), text if fragment else url)
        self.assertEqual((type(urldefrag("a")), type(urlparse("a"))), (DefragResult, ParseResult))

    def test_a_host_of_which_nfkc_makes_a_delimiter(self):
        text = "http://example.com＃@evil.com/"
        with self.assertRaises(ValueError):
            urllib.parse.urlsplit(text)
        self.assertEqual(urlsplit(text).hostname, "evil.com")
        self.assertEqual(urlsplit(unicodedata.normalize("NFKC", text)).hostname, "example.com")

    def test_of_other_types(self):
        for call in [
            *(lambda: urlsplit(b"http://a/"), lambda: urlsplit("//a", None)),
            *(lambda: urljoin(None, "a"), lambda: urljoin(b"", "a"), lambda: urljoin("", b"a")),
        ]:
            with self.assertRaises(TypeError):
                call()

    def test_what_is_not_a_reference_is_rejected(self):
        for text in ["http://a b/", " http://a/", "http://a/\n", "http://[::1", "//a:b/", "%zz"]:
            with self.assertRaises(ParseError):
                urlsplit(text)

    def test_a_port_that_is_too_large(self):
        with self.assertRaises(ValueError):
            _ = urlsplit("//h:65536").port


class Join(unittest.TestCase):
    def test_the_references_of_rfc_3986_join_as_by_urllib(self):
        base = "http://a/b/c/d;p?q"
        for reference in (
            "g:h g ./g g/ /g //g ?y g?y #s g#s g?y#s ;x g;x g;x?y#s . ./ .. ../ ../g ../.. ../../ "
            "../../g ../../../g ../../../../g /./g /../g g. .g g.. ..g ./../g ./g/. g/./h g/../h "
            "g;x=1/./y g;x=1/../y g?y/./x g?y/../x g#s/./x g#s/../x"
        ).split():
            self.assertEqual(urljoin(base, reference), urllib.parse.urljoin(base, reference))

    def test_the_fragment_of_the_base_plays_no_part(self):
        self.assertEqual(urljoin("http://a/b#c", "d"), "http://a/d")
        self.assertEqual(urljoin("http://a/b#c", ""), "http://a/b")

    def test_an_empty_base(self):
        self.assertEqual(urljoin("", "a b".replace(" ", "/")), "a/b")
        with self.assertRaises(ParseError):
            urljoin("", "a b")

    def test_what_has_no_target(self):
        for base, url in [("a b", "c"), ("a", "b c"), ("1:", "a"), ("%", "")]:
            with self.assertRaises(ParseError):
                urljoin(base, url)
        with self.assertRaises(ResolveError):
            urljoin("mailto:a@b", "c")

    def test_relative_bases_join_as_by_urllib(self):
        for base in ["/a/b", "a/b", "a/", "//h/a/b", "//h/", "?q", "/", "/a/b?q"]:
            for url in ["c", "c/d?e#f", "/g", "//i/j", "#f", "?z", "x:y", "../c", "./c"]:
                # (urllib.parse makes a root of the one, and none of the other)
                if base == "?q" and "c" in url or (base, url) == ("/", "../c"):
                    continue
                wanted = urllib.parse.urljoin(base, url)
                self.assertEqual(urljoin(base, url), wanted, (base, url))

    def test_what_a_relative_base_leads_out_of(self):
        for base, url, wanted in [
            ("a/b", "../../c", "../c"),
            ("..", "c", "../c"),
            ("a", "..", "../"),
            ("a", ".", "./"),
            ("a/b", "..", "./"),
            ("a/%2E%2e/b", "c", "c"),
            ("a/b", "./c:d", "a/c:d"),
            ("a", "./c:d", "./c:d"),
            ("a/b", "..//c", ".//c"),
            ("a/b?q", "", "a/b?q"),
            ("a/./b", "#f", "a/b#f"),
            ("../a", "?q", "../a?q"),
            ("/a", "..//b", "/.//b"),
            ("?q", "", "?q"),
            ("//h", "a", "//h/a"),
            ("/a", "X:b/../c", "X:b/../c"),
        ]:
            self.assertEqual(urljoin(base, url), wanted, (base, url))

    def test_a_relative_base_leads_where_both_lead(self):
        """From any place: first the base and then the reference, or what they are joined to."""
        dice = random.Random(1)
        pieces = ["a", "b:c", ".", "..", "", "%2e", "%2E.", "é", "a", "b"]
        places = ["http://h/x/y/z?w", "http://h", "x:/", "x://", "file:///a/b/", "x://h//y/../z"]

        def drawn():
            made = dice.choice(["", "", "", "/", "//h/", "//h"])
            path = "/".join(dice.choices(pieces, k=dice.randrange(5)))
            made += "" if made == "//h" else path
            made += dice.choice(["", "", "", "?", "?q"]) + dice.choice(["", "", "", "#f"])
            return made if IriRef.is_valid(made) else drawn()

        for _ in range(20_000):
            base, url = drawn(), drawn()
            if IriRef(base).scheme is not None:
                continue
            joined = urljoin(base, url)
            self.assertTrue(IriRef.is_valid(joined), (base, url, joined))
            for place in map(Iri.parse, places):
                wanted = place.resolve(base).with_fragment(None).resolve(url)
                self.assertEqual(place.resolve(joined), wanted, (place, base, url, joined))


if __name__ == "__main__":
    unittest.main()
