"""The basic algorithm of RFC 3986, section 5.2, and bases with a fragment."""

import pathlib
import random
import re
import unittest

from fluent_uri import Iri, ResolveError, ResolveErrorKind, Uri, batch
from fluent_uri.parse import urljoin

ROOT = pathlib.Path(__file__).resolve().parents[2]
# A row of a page: a case, a base and a reference, and what comes of them with `basic` and without.
ROW = re.compile(r"^\| .* \| `([^`]+)`, `([^`]+)` \| `([^`]+)` \| `([^`]+)` \|$", re.MULTILINE)
NAMES = {
    "INVALID_REFERENCE_AGAINST_OPAQUE_BASE": "InvalidReferenceAgainstOpaqueBase",
    "PATH_STARTS_WITH_DOUBLE_SLASH": "PathStartsWithDoubleSlash",
}


def target(base, reference, **named):
    try:
        return str(base.resolve(reference, **named))
    except ResolveError as error:
        return NAMES[error.kind.name]


class TestBasic(unittest.TestCase):
    def test_many_texts(self):
        for kind, given in [(Uri, "foo:/a#f"), (Iri, "foo:/a#f"), (Uri, "http://a/b/..")]:
            base = kind.parse(given)
            texts = ["g", ".//b", "%2E%2E/g", "a b", "", "x:a/../b", "//c"]
            for basic in [False, True]:
                wanted = []
                for it in texts:
                    try:
                        wanted.append(str(base.resolve(it, basic=basic)))
                    except ValueError:
                        wanted.append(None)
                self.assertEqual(batch.resolve(base, texts, basic=basic), wanted)
                made = batch.resolve_column(base, *batch.column(texts), basic=basic)
                self.assertEqual(made.texts(), wanted)
        base = Uri.parse("foo:b")
        self.assertEqual(batch.resolve(base, ["g h"], basic=True, mend=True), ["foo:g%20h"])
        self.assertEqual(str(base.resolve("g h", basic=True, mend=True)), "foo:g%20h")

    def test_errors(self):
        base = Uri.parse("foo:/a")
        with self.assertRaises(ResolveError) as caught:
            base.resolve("/.//b", basic=True)
        self.assertIs(caught.exception.kind, ResolveErrorKind.PATH_STARTS_WITH_DOUBLE_SLASH)
        self.assertIn("//", str(caught.exception))
        column = batch.column(["g"])
        for call in [
            lambda **it: base.resolve("g", **it),
            lambda **it: Iri.parse("x:/").resolve("g", **it),
            lambda **it: batch.resolve(base, ["g"], **it),
            lambda **it: batch.resolve_column(base, *column, **it),
        ]:
            with self.assertRaisesRegex(TypeError, "basic does not go with normalize"):
                call(basic=True, normalize=True)
            with self.assertRaisesRegex(TypeError, "scheme_rules goes with normalize"):
                call(basic=True, scheme_rules=True)
        with self.assertRaises(TypeError):
            base.resolve("g", True)
        for call in [base.join_link, base.relativize, base.normalize]:
            with self.assertRaises(TypeError):
                call("g", basic=True)

    def test_a_base_with_a_fragment(self):
        for text in ["http://a/b?c", "foo:/a", "foo:b", "x://é/a/../b"]:
            bare, base = Iri.parse(text), Iri.parse(f"{text}#f?/é")
            for reference in ["", "#g", "?q", "g", "../g", "//g", "y:g", "%7e/."]:
                for named in [{}, {"basic": True}, {"normalize": True}]:
                    wanted = target(bare, reference, **named)
                    self.assertEqual(target(base, reference, **named), wanted)
                    made = batch.resolve(base, [reference], **named)
                    self.assertEqual(made, [None if wanted in NAMES.values() else wanted])
        self.assertEqual(urljoin("http://a/b#c", "?d"), "http://a/b?d")
        self.assertEqual(urljoin("http://a/b/%2e%2e/c", "d"), "http://a/d")

    def test_what_relativize_makes_has_a_target(self):
        dice = random.Random(1)
        parts = ["/", "//", ".", "..", "a", "b:", "?", "#", "%2e", "x:", "h"]
        tried = 0
        while tried < 2000:
            pair = ["".join(dice.choices(parts, k=dice.randrange(7))) for _ in range(2)]
            base, to = (Uri.try_parse(f"x:{it}") for it in pair)
            if base is None or to is None:
                continue
            tried += 1
            for prefers in [False, True]:
                made = base.relativize(to, prefer_relative_path=prefers)
                self.assertEqual(base.resolve(made), to.resolve(to), (base, to))


class TestPages(unittest.TestCase):
    """The table of the page has what the calls return."""

    def test_differences(self):
        found = 0
        text = (ROOT / "docs" / "CONCEPTS.md").read_text(encoding="utf-8")
        for base, reference, by_basic, without in ROW.findall(text):
            base = Uri.parse(base)
            for wanted, basic in [(by_basic, True), (without, False)]:
                try:
                    made = str(base.resolve(reference, basic=basic))
                except ResolveError as error:
                    made = error.kind.name
                self.assertEqual(made, wanted, (base, reference, basic))
            found += 1
        self.assertEqual(found, 6)


if __name__ == "__main__":
    unittest.main()
