"""Random texts: the compiled module against ctypes, lists against single calls, and what holds of
any value."""

import random
import unittest

import fluent_uri
from fluent_uri import Iri, IriRef, Uri, UriRef, _reference, batch

COUNT = 4000
PIECES = (
    "a A z0 - . .. ... ~ _ / // /. /.. /../ ? # : @ [ ] ! $ & ' ( ) * + , ; = % %4 %41 %7e %2F "
    "%c3%a9 %E2%80%8E %80 %ff http HTTP s: x:y file 80 :443 [::1] [1:2::3] [v1.a] 127.0.0.1 é ü "
    "漢 𐌀 \u202e \ue000 \ud800 < > \" \\ ^ ` { | } \0 \x7f"
).split(" ") + [" ", "\n", ""]
NAMES = ["scheme", "authority", "userinfo", "host", "port", "path", "query", "fragment"]


KINDS = [
    (Uri, _reference.Uri),
    (UriRef, _reference.UriRef),
    (Iri, _reference.Iri),
    (IriRef, _reference.IriRef),
]


def texts():
    dice = random.Random(1)
    for _ in range(COUNT):
        begin = dice.choice(["", "", "x:", "http://", "HTTP://a", "//", "/"])
        yield begin + "".join(dice.choices(PIECES, k=dice.randrange(8)))


def outcome_of(call):
    """What a call returns, or what it raises."""
    try:
        return str(call())
    except ValueError as error:
        return repr(error)


def recomposed(value):
    """The text of the components (RFC 3986, section 5.3)."""
    text = "" if value.scheme is None else f"{value.scheme}:"
    text += "" if value.authority is None else f"//{value.authority}"
    text += value.path
    text += "" if value.query is None else f"?{value.query}"
    return text + ("" if value.fragment is None else f"#{value.fragment}")


def authority(value):
    text = "" if value.userinfo is None else f"{value.userinfo}@"
    return text + value.host + ("" if value.port is None else f":{value.port}")


class Random(unittest.TestCase):
    def test_both_ways_to_call_agree(self):
        if not fluent_uri.is_compiled:
            self.skipTest("there is no compiled module")
        for text in texts():
            for one, other in KINDS:
                self.assertEqual(
                    outcome_of(lambda: one.parse(text)), outcome_of(lambda: other.parse(text))
                )
                self.assertEqual(
                    outcome_of(lambda: one.parse(text).normalize()),
                    outcome_of(lambda: other.parse(text).normalize()),
                )

    def test_components_put_together_are_the_text(self):
        for kind, _ in KINDS:
            values = [it for it in batch.parse(texts(), kind) if it is not None]
            self.assertGreater(len(values), COUNT / 50)
            for value in values:
                for it in [value, value.normalize()]:
                    self.assertEqual(recomposed(it), str(it))
                    if it.authority is not None:
                        self.assertEqual(authority(it), it.authority)

    def test_each_way_to_normalise_agrees(self):
        every = list(texts())
        for kind, _ in KINDS:
            values = batch.parse(every, kind)
            wanted = [None if it is None else str(it.normalize()) for it in values]
            self.assertEqual(batch.normalize(every, kind), wanted)
            self.assertEqual(batch.normalize_column(*batch.column(every), kind).texts(), wanted)

    def test_a_normal_form_is_its_own(self):
        for kind, _ in KINDS:
            forms = [it for it in batch.normalize(texts(), kind) if it is not None]
            self.assertEqual(batch.normalize(forms, kind), forms)

    def test_each_way_to_resolve_agrees(self):
        every = list(texts())
        for base in [Uri.parse("http://a/b/c/d;p?q"), Iri.parse("x:/é/..//"), Iri.parse("x:y")]:
            for normalize in [False, True]:
                wanted = []
                for text in every:
                    try:
                        wanted.append(str(base.resolve(text, normalize=normalize)))
                    except ValueError:
                        wanted.append(None)
                self.assertEqual(batch.resolve(base, every, normalize=normalize), wanted)


if __name__ == "__main__":
    unittest.main()
