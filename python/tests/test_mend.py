"""Texts that are mended: the rows of texts to mend, calls for one and for many, and links of
pages."""

import unittest
from array import array

from fluent_uri import Iri, IriRef, ParseError, ParseErrorKind, Reference, ResolveError, Uri, UriRef
from fluent_uri import batch
from rows import ERRORS, KINDS, field, rows

KIND_OF = {ERRORS[it.name]: it for it in ParseErrorKind if it.name in ERRORS}
BASE = Uri("http://a/b/c?d#e")
LINKS = [
    *("/a b", " ../x\n", "?[1]", "#z z", "http://a b/", "mailto:x y", "é", "\t//h/\r\n"),
    *("", "\ud800"),
]
NAMES = ["scheme", "authority", "userinfo", "host", "port", "path", "query", "fragment"]


def mended_texts():
    """A kind, a text, and what it is mended to, or the kind of an error and its index."""
    for _, operation, fields, expected in rows():
        if operation == "mend":
            name, *index = map(field, expected)
            wanted = (KIND_OF[name], int(index[0])) if index else name
            yield KINDS[fields[0]], field(fields[1]), wanted


def outcome(call, *words):
    try:
        return str(call(*words))
    except ParseError as error:
        return error.kind, error.index


def white(text):
    """The text as a page may have it, with white space that HTML drops."""
    half = len(text) // 2
    return f" \n\f{text[:half]}\r\t{text[half:]} "


def has_white(text):
    return text != text.strip(" \t\n\f\r") or bool(set(text) & set("\t\n\r"))


def or_none(call, *words, **more):
    try:
        return str(call(*words, **more))
    except ValueError:
        return None


class Rows(unittest.TestCase):
    def test_each_row(self):
        tried, links = {it: ([], []) for it in KINDS.values()}, 0
        for kind, text, wanted in mended_texts():
            self.assertEqual(outcome(kind.mend, text), wanted, (kind, text))
            tried[kind][0].append(text)
            tried[kind][1].append(wanted if isinstance(wanted, str) else None)
            if not has_white(text):
                links += 1
                for link in [text, white(text)]:
                    self.assertEqual(outcome(kind.mend_link, link), wanted, (kind, link))
        self.assertGreater(sum(len(texts) for texts, _ in tried.values()), 3000)
        self.assertGreater(links, 2000)
        for kind, (texts, wanted) in tried.items():
            self.assertEqual(batch.mend(texts, kind), wanted)
            made = batch.parse(texts, kind, mend=True)
            self.assertEqual([it if it is None else str(it) for it in made], wanted)
            self.assertEqual({type(it) for it in made}, {kind, type(None)})
            clean = [it for it in texts if not has_white(it)]
            dirty = [white(it) for it in clean]
            self.assertEqual(batch.mend_link(dirty, kind), batch.mend(clean, kind))


class Values(unittest.TestCase):
    def test_a_text_of_the_kind_is_unchanged(self):
        for kind in KINDS.values():
            text = "http://u@a:1/b/%7e?c#d"
            value = kind(text)
            self.assertEqual(kind.mend(text), value)
            for call in [kind.mend, kind.mend_link]:
                self.assertIs(call(value), value)
                self.assertEqual((type(call(Iri(text))), call(Iri(text))), (kind, value))
        self.assertEqual(Uri.mend(Iri("http://a/é")), Uri("http://a/%C3%A9"))

    def test_components(self):
        made = IriRef.mend("//ü@é:1/a b?[é]#x#y")
        wanted = [None, "ü@é:1", "ü", "é", "1", "/a%20b", "%5Bé%5D", "x%23y"]
        self.assertEqual([getattr(made, it) for it in NAMES], wanted)
        made = UriRef.mend("/" + " é" * 3000)
        self.assertEqual(made.path, "/" + "%20%C3%A9" * 3000)

    def test_a_subclass(self):
        class Link(UriRef):
            pass

        for made in [Link.mend("a b"), Link.mend_link(" a b "), Link.mend(Link("a"))]:
            self.assertIs(type(made), Link)
        link = Link("a")
        self.assertIsNot(Link.mend(link), link)

    def test_errors(self):
        for call, text, wanted in [
            (Uri.mend, "http://é/ ", (2, 7, 7)),
            (Iri.mend, "http://é\\/", (2, 9, 8)),
            (UriRef.mend, "é\ud800", (4, 2, 1)),
            (IriRef.mend_link, " \n//é\\/", (2, 4, 3)),
            (IriRef.mend_link, " é\ud800", (4, 3, 2)),
            (IriRef.mend_link, " //é\t\n\\é", (2, 4, 3)),
            (Uri.mend_link, "\n", (2, 0, 0)),
        ]:
            with self.assertRaises(ParseError) as caught:
                call(text)
            error = caught.exception
            self.assertEqual((error.kind, error.index, error.char_index), wanted, text)
        for call in [Reference.mend, Reference.mend_link] if hasattr(Reference, "mend") else []:
            with self.assertRaises(TypeError):
                call("a")

    def test_a_relative_path_is_preferred(self):
        base = Uri("http://a/b/c/d")
        for target, short, relative in [
            ("http://a/x", "/x", "../../x"),
            ("http://a/b/c/x", "x", "x"),
            ("http://a/b/c/d", "", ""),
            ("http://h/x", "//h/x", "//h/x"),
        ]:
            self.assertEqual(str(base.relativize(target)), short)
            made = base.relativize(target, prefer_relative_path=True)
            self.assertEqual((type(made), str(made)), (UriRef, relative))
            self.assertEqual(str(base.resolve(made)), target)
            for prefer in [False, True]:
                wanted = [str(base.relativize(target, prefer_relative_path=prefer))]
                made = batch.relativize(base, [target], prefer_relative_path=prefer)
                self.assertEqual(made, wanted)
        made = Iri("x:/é/b").relativize("x:/c", prefer_relative_path=True)
        self.assertEqual((type(made), str(made)), (IriRef, "../c"))


class Mended(unittest.TestCase):
    """`mend=True`: each text is taken as what `mend` makes of it."""

    def test_of_one_text(self):
        base = Iri("http://é/a/b")
        for text in [it for it in LINKS if UriRef.is_valid(it) or or_none(UriRef.mend, it)]:
            for it, kind in [(BASE.with_fragment(None), UriRef), (base, IriRef)]:
                for normalize in [False, True]:
                    self.assertEqual(
                        or_none(it.resolve, text, normalize=normalize, mend=True),
                        or_none(it.resolve, kind.mend(text), normalize=normalize),
                    )
        self.assertEqual(base.relativize("http://é/a/b c", mend=True), IriRef("b%20c"))
        self.assertEqual(BASE.relativize("http://a/b/é", mend=True), UriRef("%C3%A9"))
        for call in [BASE.relativize, base.relativize]:
            with self.assertRaises(ParseError):
                call("b c", mend=True)
        with self.assertRaises(ParseError):
            base.resolve("//a b", mend=True)

    def test_of_many(self):
        base, column = BASE.with_fragment(None), batch.column(LINKS)
        for one, many, of_column in [
            (lambda it: UriRef.mend(it), batch.mend, batch.mend_column),
            (lambda it: UriRef.mend_link(it), batch.mend_link, batch.mend_link_column),
            (
                lambda it: UriRef.mend(it).normalize(),
                lambda it: batch.normalize(it, UriRef, mend=True),
                lambda *it, **more: batch.normalize_column(*it, UriRef, mend=True, **more),
            ),
            (
                lambda it: IriRef.mend(it).to_uri(),
                lambda it: batch.to_uri(it, IriRef, mend=True),
                lambda *it, **more: batch.to_uri_column(*it, IriRef, mend=True, **more),
            ),
            (
                lambda it: base.resolve(it, mend=True),
                lambda it: batch.resolve(base, it, mend=True),
                lambda *it, **more: batch.resolve_column(base, *it, mend=True, **more),
            ),
            (
                lambda it: base.relativize(it, mend=True),
                lambda it: batch.relativize(base, it, mend=True),
                lambda *it, **more: batch.relativize_column(base, *it, mend=True, **more),
            ),
            (
                lambda it: UriRef.mend(it).path,
                lambda it: batch.component(it, "path", UriRef, mend=True),
                lambda *it, **more: batch.component_column(*it, "path", UriRef, mend=True, **more),
            ),
        ]:
            wanted = [or_none(one, it) for it in LINKS]
            self.assertTrue(None in wanted and len(set(wanted)) > 1)
            self.assertEqual(many(LINKS), wanted)
            self.assertEqual(of_column(*column).texts(), wanted)
            wide = array("Q", column[1])
            made = of_column(column[0], wide, start=2, count=5, validity=b"\xff\x03")
            self.assertEqual((made.texts(), made.offsets.itemsize), (wanted[2:7], 8))
        self.assertEqual(batch.query(LINKS, UriRef, mend=True)[2], "%5B1%5D")
        self.assertEqual(batch.query_column(*column, UriRef, mend=True)[2], "%5B1%5D")


class Links(unittest.TestCase):
    def test_join_link(self):
        for base, link, wanted in [
            (BASE, " ../x y\n", "http://a/x%20y"),
            (BASE, "?[1]#z z", "http://a/b/c?%5B1%5D#z%20z"),
            (BASE, "#z", "http://a/b/c?d#z"),
            (BASE, "", "http://a/b/c?d"),
            (BASE, "é", "http://a/b/%C3%A9"),
            (BASE, "x:y z#a", "x:y%20z#a"),
            (Iri("http://é/#f"), " /ü ", "http://é/ü"),
            (BASE, UriRef("%7e"), "http://a/b/%7e"),
        ]:
            made = base.join_link(link)
            self.assertEqual((type(made), str(made)), (type(base), wanted))
            bare = base.join_link(link, keep_fragment=False)
            self.assertEqual(bare, made.with_fragment(None))
            self.assertIsNone(bare.fragment)
            self.assertEqual(base.join_link(link, normalize=True), made.normalize())
        for link in ["http://a b/", "//\\", "\ud800"]:
            with self.assertRaises(ParseError):
                BASE.join_link(link)
        with self.assertRaises(ResolveError):
            Uri("mailto:a").join_link("b")

    def test_many(self):
        for base in [BASE, Iri("http://é/#f"), Uri("x:/")]:
            for normalize in [False, True]:
                for keep in [False, True]:
                    how = {"normalize": normalize, "keep_fragment": keep}
                    wanted = [or_none(base.join_link, it, **how) for it in LINKS]
                    self.assertEqual(batch.join_links(base, LINKS, **how), wanted)

    def test_a_subclass(self):
        class Page(Uri):
            pass

        self.assertIs(type(Page("http://a/b#c").join_link(" d e ")), Page)


if __name__ == "__main__":
    unittest.main()
