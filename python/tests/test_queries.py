"""Percent-encoding and the pairs of queries, beside those calls of `urllib.parse`."""

import random
import unittest
import urllib.parse

from fluent_uri import ParseError
from fluent_uri import parse as ours

CHARACTERS = "".join(map(chr, range(128))) + "é漢𐌀ÿ"


class Quote(unittest.TestCase):
    def test_as_by_urllib(self):
        texts = ["", "a b/é", CHARACTERS, "%41%zz", "+ +", "𐌀" * 1000]
        for safe in ["/", "", "%", "/%", "é", "-._~a", "!#$&'()*+,/:;=?@[]", b"/:\xff"]:
            for text in [*texts, *(it.encode() for it in texts), bytes(range(256))]:
                for name in ["quote", "quote_plus"]:
                    wanted = getattr(urllib.parse, name)(text, safe)
                    self.assertEqual(getattr(ours, name)(text, safe), wanted, (name, text, safe))
        self.assertEqual(ours.quote("é", encoding="latin-1"), "%E9")
        self.assertEqual(ours.quote("漢", encoding="latin-1", errors="xmlcharrefreplace"),
                         urllib.parse.quote("漢", encoding="latin-1", errors="xmlcharrefreplace"))

    def test_in_other_encodings_as_by_urllib(self):
        for encoding in ["utf-8-sig", "utf-16", "utf-32", "utf-16-le", "utf-7", "cp037", "ascii"]:
            for text in ["", "ab", "a b", "a/b~", "\u0120", "\u2020 "]:
                for safe in ["/", "", "%"]:
                    for name in ["quote", "quote_plus"]:
                        found = [
                            getattr(it, name)(text, safe, encoding, "replace")
                            for it in (ours, urllib.parse)
                        ]
                        self.assertEqual(*found, (name, text, safe, encoding))
        self.assertEqual(ours.quote("", encoding="utf-8-sig"), "")
        self.assertEqual(ours.quote_plus("\u0120", encoding="utf-16-le"), "%20%01")

    def test_what_is_rejected(self):
        for safe in [" ", "<", "\n", "\0", "\x7f"]:
            with self.assertRaises(ValueError):
                ours.quote("a", safe)
        with self.assertRaises(ParseError):
            ours.quote("\ud800")
        for call in [
            *(lambda: ours.quote(5), lambda: ours.quote(None), lambda: ours.quote("a", 5)),
            *(lambda: ours.quote(b"a", encoding="utf-8"), lambda: ours.quote(b"", errors="strict")),
            *(lambda: ours.unquote(b"a"), lambda: ours.unquote_plus(None)),
        ]:
            with self.assertRaises(TypeError):
                call()

    def test_there_and_back(self):
        for text in ["", CHARACTERS, "a+b c%20", "\x80\xff"]:
            self.assertEqual(ours.unquote(ours.quote(text)), text)
            self.assertEqual(ours.unquote_plus(ours.quote_plus(text)), text)


class Unquote(unittest.TestCase):
    def test_as_by_urllib(self):
        for text in ["", "a%20b", "%C3%A9", "%ff%41", "é%A9%E2%82é", "+%2B+", "%C3+%A9", "a/b?c"]:
            for more in [(), ("latin-1",), ("utf-8", "ignore"), ("ascii", "replace"), ("utf8",)]:
                for name in ["unquote", "unquote_plus"]:
                    wanted = getattr(urllib.parse, name)(text, *more)
                    self.assertEqual(getattr(ours, name)(text, *more), wanted, (name, text, more))
        with self.assertRaises(UnicodeDecodeError):
            ours.unquote("%ff", errors="strict")

    def test_in_other_encodings_as_by_urllib(self):
        for encoding in ["utf-8-sig", "utf-16", "utf-32", "utf-16-le", "utf-7", "cp037", "ascii"]:
            for text in ["", "ab", "a+b", "a%41", "%EF%BB%BFa", "%FF%FEa%00", "\u0120%20%01é"]:
                for name in ["unquote", "unquote_plus"]:
                    found = [getattr(it, name)(text, encoding) for it in (ours, urllib.parse)]
                    self.assertEqual(*found, (name, text, encoding))
                query = f"a={text}"
                found = [it.parse_qsl(query, encoding=encoding) for it in (ours, urllib.parse)]
                self.assertEqual(*found, (text, encoding))
        self.assertEqual(ours.unquote("ab", encoding="utf-16"), "ab")

    def test_what_is_rejected(self):
        for text, index in [("%zz", 0), ("a b", 1), ("a+%", 2), ("#", 0), ("a[", 1), ("\ud800", 0)]:
            for call in [ours.unquote, ours.unquote_plus, ours.parse_qs, ours.parse_qsl]:
                with self.assertRaises(ParseError) as caught:
                    call(text)
                self.assertEqual(caught.exception.index, index)


class Pairs(unittest.TestCase):
    TEXTS = [
        *("", "&", "&&", "=", "=a", "a", "a=", "a=1&a=2", "a=b=c", "a+b=c%2Bd", "&a=b&", "a;b=c"),
        *("%C3%A9=%ff", "é=ü", "a=1&b&=c&d=", "=&=", "a=%26&b=%3D"),
    ]

    def test_as_by_urllib(self):
        for text in self.TEXTS:
            for keep in [False, True]:
                # (an empty query is an error of strict parsing before Python 3.11)
                for strict in [False, True][: 1 + bool(text)]:
                    for more in [{}, {"encoding": "latin-1"}, {"errors": "ignore"},
                                 {"separator": ";"}, {"max_num_fields": 2}]:
                        for name in ["parse_qs", "parse_qsl"]:
                            found = [
                                self.outcome(getattr(it, name), text, keep, strict, more)
                                for it in (ours, urllib.parse)
                            ]
                            self.assertEqual(*found, (name, text, keep, strict, more))

    def outcome(self, call, text, keep, strict, more):
        try:
            return call(text, keep, strict, **more)
        except ValueError:
            return ValueError

    def test_a_separator(self):
        made = ours.parse_qsl("a=1!!b=2", separator="!!")
        self.assertEqual(made, [("a", "1"), ("b", "2")])
        for separator, error in [("", ValueError), (b"&", TypeError), (None, TypeError)]:
            with self.assertRaises(error):
                ours.parse_qs("a=b", separator=separator)
        with self.assertRaises(ValueError):
            ours.parse_qs("a=%41", separator="4")

    def test_encoded_as_by_urllib(self):
        class Named:
            def __str__(self):
                return "n&m"

        for query in [
            *({}, [], {"a": "b c", "é": 5}, [("a", None), ("a", b"\xff/")], {b"k": Named()}),
            *({"a": ["b", 5, b"c"], "d": ("e",), "f": 1.5}, (("a", "b"),), {"s": "xyz", "t": []}),
        ]:
            for doseq in [False, True]:
                for more in [(), ("/",), ("", "latin-1", "replace")]:
                    self.assertEqual(
                        ours.urlencode(query, doseq, *more),
                        urllib.parse.urlencode(query, doseq, *more),
                    )
            self.assertEqual(
                ours.urlencode(query, quote_via=ours.quote),
                urllib.parse.urlencode(query, quote_via=urllib.parse.quote),
            )
        for query in ["a=b", b"a=b", 5, None, ["ab", 5]]:
            with self.assertRaises((TypeError, ValueError)):
                ours.urlencode(query)

    def test_pairs_there_and_back(self):
        dice = random.Random(1)
        for _ in range(300):
            pairs = [
                ("".join(dice.choices(CHARACTERS, k=3)), "".join(dice.choices(CHARACTERS, k=4)))
                for _ in range(dice.randrange(5))
            ]
            text = ours.urlencode(pairs)
            self.assertEqual(ours.parse_qsl(text, keep_blank_values=True), pairs)
            self.assertEqual(text, urllib.parse.urlencode(pairs))


if __name__ == "__main__":
    unittest.main()
