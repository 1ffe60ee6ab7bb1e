"""Calls for many texts, against the same calls for one text each."""

import ctypes
import pathlib
import pickle
import sys
import unittest
from array import array
from unittest import mock

from fluent_uri import Iri, IriRef, Uri, UriRef, _columns, batch
from fluent_uri._buffers import Buffer

try:
    import numpy
except ImportError:
    numpy = None

LIST = pathlib.Path(__file__).resolve().parents[2] / "tools" / "bench" / "urls.txt"
NAMES = ["scheme", "authority", "userinfo", "host", "port", "path", "query", "fragment"]
URLS = [it for it in LIST.read_text(encoding="utf-8").split("\n") if it and it[0] != "#"]
TEXTS = URLS + [
    *("a b", "http://[::1", "x:", "", "x:\n", "\n", "é", "http://é/%7e", "http://a/%zz"),
    *("HTTP://A:80/./%7e", "//@:?#", "x:" + "%7e" * 5000, "%80", "\ud800", "a:\udfff", "a:\0"),
]


def one(call, text):
    """What a call returns of a text, or None if it raises ValueError."""
    try:
        return str(call(text))
    except ValueError:
        return None


class Lists(unittest.TestCase):
    def test_parse(self):
        for kind in [Uri, UriRef, Iri, IriRef]:
            values = batch.parse(TEXTS, kind)
            self.assertEqual(
                [None if it is None else str(it) for it in values],
                [one(kind.parse, it) for it in TEXTS],
            )
            self.assertEqual({type(it) for it in values}, {kind, type(None)})

    def test_components_of_what_is_parsed(self):
        for value in batch.parse(TEXTS, IriRef):
            if value is not None:
                alone = IriRef.parse(str(value))
                for name in NAMES:
                    self.assertEqual(getattr(value, name), getattr(alone, name))

    def test_normalize(self):
        for kind in [Uri, UriRef, Iri, IriRef]:
            wanted = [one(lambda it: kind.parse(it).normalize(), it) for it in TEXTS]
            self.assertEqual(batch.normalize(TEXTS, kind), wanted)
            self.assertEqual(batch.normalize(URLS, kind), wanted[: len(URLS)])

    def test_rules_of_schemes(self):
        texts = ["http://A", "http://a/", "file://LocalHost/a", "foo://a", "wss://h?q", "a b"]
        ruled = ["http://a/", "http://a/", "file:///a", "foo://a", "wss://h/?q"]
        for kind in [Uri, UriRef, Iri, IriRef]:
            for text, wanted in zip(texts, ruled):
                value = kind.parse(text)
                self.assertEqual(str(value.normalize(scheme_rules=True)), wanted)
                self.assertEqual(value.normalize(scheme_rules=False), value.normalize())
            made = batch.normalize(texts[:5], kind, scheme_rules=True)
            self.assertEqual(made, ruled)
        self.assertEqual(batch.normalize(texts, scheme_rules=True), ruled + [None])
        column = batch.normalize_column(*batch.column(texts), scheme_rules=True)
        self.assertEqual(column.texts(), ruled + [None])
        for base in [Uri.parse("x://y"), Iri.parse("x://y")]:
            both = {"normalize": True, "scheme_rules": True}
            targets = [str(base.resolve(it, **both)) for it in texts[:5]]
            self.assertEqual(targets, ruled)
            self.assertEqual([str(base.join_link(it, **both)) for it in texts[:5]], ruled)
            self.assertEqual(batch.resolve(base, texts, **both)[:5], ruled)
            self.assertEqual(batch.join_links(base, texts, **both)[:5], ruled)
            calls = [
                lambda: base.resolve("a", scheme_rules=True),
                lambda: base.join_link("a", scheme_rules=True),
                lambda: batch.resolve(base, ["a"], scheme_rules=True),
                lambda: batch.join_links(base, ["a"], scheme_rules=True),
            ]
            for call in calls:
                with self.assertRaisesRegex(TypeError, "scheme_rules goes with normalize"):
                    call()
        for words, named in [((True,), {}), ((), {"other": True})]:
            with self.assertRaises(TypeError):
                Uri.parse("a:").normalize(*words, **named)

    def test_resolve(self):
        for base in [Uri.parse("http://a/b/c/d;p?q"), Iri.parse("foo:bar"), Iri.parse("a://é/#x")]:
            for normalize in [False, True]:
                wanted = [one(lambda it: base.resolve(it, normalize=normalize), it) for it in TEXTS]
                self.assertEqual(batch.resolve(base, TEXTS, normalize=normalize), wanted)

    def test_no_texts_and_any_iterable(self):
        self.assertEqual(batch.normalize([]), [])
        self.assertEqual(batch.parse(iter(())), [])
        self.assertEqual(batch.resolve(Uri.parse("a:/"), []), [])
        self.assertEqual(batch.normalize(it for it in ["A:b"]), ["a:b"])

    def test_a_value_that_is_not_a_text(self):
        for call in [batch.normalize, batch.parse, batch.column]:
            for given in [5, b"a:b", None]:
                with self.assertRaises(TypeError):
                    call(["a:b", given])


class Columns(unittest.TestCase):
    def setUp(self):
        self.data, self.offsets = batch.column(TEXTS)

    def buffers(self):
        """The column as several kinds of buffer."""
        yield self.data, self.offsets
        yield bytearray(self.data), array("i", self.offsets)
        yield memoryview(self.data), array("Q", self.offsets)
        yield array("B", self.data), array("q", self.offsets)
        yield self.data, bytes(self.offsets)
        yield memoryview(b"x" + self.data)[1:], memoryview(b"x" + bytes(self.offsets))[1:]
        if numpy:
            yield numpy.frombuffer(self.data, "u1"), numpy.array(self.offsets, "int32")
            yield numpy.frombuffer(self.data, "i1"), numpy.array(self.offsets, "int64")

    def test_normalize(self):
        wanted = [one(lambda it: Uri.parse(it).normalize(), it) for it in TEXTS]
        for data, offsets in self.buffers():
            made = batch.normalize_column(data, offsets)
            self.assertEqual(made.texts(), wanted)
            width = 8 if memoryview(offsets).itemsize == 8 else 4
            self.assertEqual(made.offsets.itemsize, width)
            self.assertEqual(made.offsets[-1], len(made.data))

    def test_a_buffer_of_bytes_with_offsets_of_64_bits(self):
        offsets = array("Q", self.offsets).tobytes()
        made = batch.normalize_column(self.data, offsets, large=True)
        self.assertEqual(made.texts(), batch.normalize(TEXTS))

    def test_resolve(self):
        base = Uri.parse("http://a/b/c/d;p?q")
        for data, offsets in self.buffers():
            for normalize in [False, True]:
                made = batch.resolve_column(base, data, offsets, normalize=normalize)
                wanted = [one(lambda it: base.resolve(it, normalize=normalize), it) for it in TEXTS]
                self.assertEqual(made.texts(), wanted)

    def test_to_uri(self):
        wanted = [one(lambda it: IriRef.parse(it).to_uri(), it) for it in TEXTS]
        for data, offsets in self.buffers():
            self.assertEqual(batch.to_uri_column(data, offsets, IriRef).texts(), wanted)

    def test_results_longer_than_expected(self):
        texts = ["/" + "é" * 1000] * 100
        wanted = [str(IriRef.parse(it).to_uri()) for it in texts]
        self.assertEqual(batch.to_uri_column(*batch.column(texts), IriRef).texts(), wanted)

    def test_results_that_need_offsets_of_64_bits(self):
        texts = ["/" + "é" * 100] * 3
        data, offsets = batch.column(texts)
        with mock.patch.object(_columns, "LARGEST_OFFSET", 1000):
            with self.assertRaises(OverflowError):
                batch.to_uri_column(data, offsets, IriRef)
            made = batch.to_uri_column(data, array("Q", offsets), IriRef)
            self.assertEqual(len(made.data), 1803)
            self.assertEqual(batch.column(texts)[1].itemsize, 4)
        with mock.patch.object(_columns, "LARGEST_OFFSET", 100):
            self.assertEqual(batch.column(texts)[1].itemsize, 8)

    def test_components(self):
        for kind in [Uri, IriRef]:
            values = batch.parse(TEXTS, kind)
            for name in NAMES:
                wanted = [None if it is None else getattr(it, name) for it in values]
                for code in "IQ":
                    offsets = array(code, self.offsets)
                    made = batch.component_column(self.data, offsets, name, kind)
                    self.assertEqual((made.texts(), made.offsets.typecode), (wanted, code))
                self.assertEqual(batch.component(TEXTS, name, kind), wanted)

    def test_a_part_of_a_column(self):
        made = batch.normalize_column(self.data, self.offsets[5:20])
        self.assertEqual(made.texts(), batch.normalize(TEXTS[5:19]))

    def test_validity(self):
        texts = ["a:b", "", "a b", "", "c"]
        given = bytes([0b11101])
        made = batch.normalize_column(*batch.column(texts), UriRef, validity=given)
        self.assertEqual(made.texts(), ["a:b", None, None, "", "c"])
        with self.assertRaises(ValueError):
            batch.normalize_column(*batch.column(texts * 2), UriRef, validity=given)

    def test_no_texts(self):
        for offsets in [array("I"), array("I", [0]), array("Q", [0]), b"", None]:
            for data in [b"", None]:
                made = batch.normalize_column(data, offsets)
                self.assertEqual((made.texts(), list(made.offsets)), ([], [0]))

    def test_offsets_that_are_none(self):
        for offsets in [[0, 2, 1], [0, 99], [5, 3]]:
            with self.assertRaises(ValueError):
                batch.normalize_column(b"a:b", array("I", offsets))
        for offsets in [array("H", [0, 1]), array("d", [0, 1]), array("f", [0, 1])]:
            with self.assertRaises(ValueError):
                batch.normalize_column(b"a:b", offsets)

    def test_errors_name_the_cause(self):
        for said, call in [
            ("offset of text 1 ", lambda: batch.normalize_column(b"a:b", array("I", [0, 2, 1]))),
            (
                "offset of text 2 .*`count`",
                lambda: batch.normalize_column(b"a:b", array("I", [0, 2, 3, 0, 0])),
            ),
            ("'nope': .*scheme", lambda: batch.component_column(b"", b"", "nope")),
            ("a Uri or an Iri, not .*UriRef", lambda: batch.resolve(UriRef("a"), [])),
            ("Iri or IriRef, not .*Uri", lambda: batch.to_uri_column(b"", b"", Uri)),
            ("one <class 'str'>", lambda: batch.normalize("http://a")),
            ("6 bytes", lambda: batch.normalize_column(b"", b"123456")),
            ("format 'd'", lambda: batch.normalize_column(b"", array("d", [0]))),
            ("data has bytes", lambda: batch.normalize_column(array("I"), array("I", [0]))),
            (
                "of 1 texts, not of 1 . 1",
                lambda: batch.normalize_column(b"a:b", array("I", [0, 3]), start=1, count=1),
            ),
        ]:
            with self.assertRaisesRegex((TypeError, ValueError), said):
                call()

    def test_a_buffer_is_aligned(self):
        numbers = memoryview(b"x" + array("I", [1, 2]).tobytes())[1:]
        with Buffer(numbers, "numbers", align=4) as buffer:
            self.assertEqual((buffer.address % 4, buffer.size), (0, 8))
            self.assertEqual(ctypes.string_at(buffer.address, 8), numbers.tobytes())

    def test_what_has_no_buffer(self):
        with self.assertRaises(TypeError):
            batch.normalize_column("a:b", array("I", [0, 3]))
        with self.assertRaises(TypeError):
            batch.normalize_column(b"a:b", [0, 3])

    def test_an_object_that_is_resized_by_what_the_call_asks(self):
        """Each buffer is held before it is counted, and up to the end of the call."""
        data, offsets, tried = bytearray(self.data), array("I", self.offsets), []

        class Meta(type):
            def __getattribute__(cls, name):
                change()
                return super().__getattribute__(name)

        class Number:
            def __index__(self):
                change()
                return 1

        class Link(Uri, metaclass=Meta):
            pass

        def change():
            for it in (data, offsets):
                try:
                    del it[5:]
                    tried.append(True)
                except BufferError:
                    tried.append(False)
                else:
                    it.extend(array("I", range(4)) if it is offsets else b"abc")

        for call in [
            lambda: batch.normalize_column(data, offsets, Link),
            lambda: batch.normalize_column(data, offsets, start=Number(), count=Number()),
            lambda: batch.component_column(data, offsets, "path", Link, count=Number()),
        ]:
            try:
                call()
            except ValueError:
                pass
        self.assertIn(False, tried)

    def test_nothing_is_held_or_changed(self):
        data, offsets = bytearray(self.data), array("I", self.offsets)
        before = sys.getrefcount(data), sys.getrefcount(offsets)
        batch.normalize_column(data, offsets)
        self.assertEqual((sys.getrefcount(data), sys.getrefcount(offsets)), before)
        self.assertEqual((bytes(data), offsets), (self.data, self.offsets))
        for offset in [0, 4]:
            with self.assertRaises(ValueError):
                batch.normalize_column(data, offsets, start=offset, count=-1)
        data.append(0)
        offsets.append(0)


class Arrow(unittest.TestCase):
    """Buffers as Arrow hands them over: padded, with an offset and a count, or none at all."""

    TEXTS = ["HTTP://A", None, "x:%7e", "", "é", "a b", None, "A:b", "c:d", "e:F", "G:h"]

    def buffers(self, code):
        present = [it or "" for it in self.TEXTS]
        data, offsets = batch.column(present)
        bits = sum((it is not None) << at for at, it in enumerate(self.TEXTS))
        return (
            data + bytes(-len(data) % 64),
            (array(code, offsets).tobytes() + bytes(64))[:128],
            bits.to_bytes(64, "little"),
        )

    def wanted(self, texts):
        return [None if it is None else one(lambda it: Uri(it).normalize(), it) for it in texts]

    def test_each_slice(self):
        for code in "IQ":
            data, offsets, validity = self.buffers(code)
            for start in range(len(self.TEXTS) + 1):
                for stop in range(start, len(self.TEXTS) + 1):
                    made = batch.normalize_column(
                        *(data, offsets),
                        validity=validity,
                        large=code == "Q",
                        start=start,
                        count=stop - start,
                    )
                    wanted = self.wanted(self.TEXTS[start:stop])
                    self.assertEqual((made.texts(), made.offsets[0]), (wanted, 0))
                    self.assertEqual(len(made.validity), (stop - start + 7) // 8)

    def test_padded_offsets_without_a_count(self):
        data, offsets, validity = self.buffers("I")
        with self.assertRaisesRegex(ValueError, "`count`"):
            batch.normalize_column(data, offsets, validity=validity)

    def test_each_call_takes_a_slice(self):
        data, offsets, validity = self.buffers("I")
        base = Uri("x://y/")
        part = {"validity": validity, "start": 2, "count": 6}
        some = self.TEXTS[2:8]
        for made, call in [
            (batch.resolve_column(base, data, offsets, **part), base.resolve),
            (batch.to_uri_column(data, offsets, IriRef, **part), lambda it: IriRef(it).to_uri()),
            (batch.component_column(data, offsets, "path", **part), lambda it: Uri(it).path),
        ]:
            wanted = [None if it is None else one(call, it) for it in some]
            self.assertEqual(made.texts(), wanted)

    def test_a_result_as_a_column_again(self):
        made = batch.normalize_column(*batch.column(["HTTP://A/%7e", "a b", "x:"]))
        again = batch.component_column(made.data, made.offsets, "path", validity=made.validity)
        self.assertEqual(again.texts(), ["/~", None, ""])


class AsSequence(unittest.TestCase):
    TEXTS = ["a:b", None, "", "é/", None, "x", "y", "z", "c:d", None]

    def setUp(self):
        data, offsets = batch.column([it or "" for it in self.TEXTS])
        bits = sum((it is not None) << at for at, it in enumerate(self.TEXTS))
        self.made = batch.Column(data, offsets, bits.to_bytes(2, "little"))

    def test_a_list_of_its_texts(self):
        made, texts = self.made, self.TEXTS
        self.assertEqual(len(made), len(texts))
        self.assertEqual((list(made), made.texts(), [*reversed(made)]), (texts, texts, texts[::-1]))
        self.assertEqual([made[it] for it in range(-10, 10)], texts * 2)
        self.assertTrue("x" in made and None in made and "w" not in made)
        self.assertEqual((made.index("x"), made.count(None)), (5, 3))
        for at in [10, -11]:
            with self.assertRaises(IndexError):
                made[at]

    def test_slices(self):
        ends = [None, *range(-12, 13)]
        for start in ends:
            for stop in ends:
                for step in [None, 1, 2, -1, -3, 20]:
                    part = slice(start, stop, step)
                    made = self.made[part]
                    self.assertEqual(made.texts(), self.TEXTS[part])
                    self.assertEqual(len(made), len(self.TEXTS[part]))
        again = batch.normalize_column(
            *(self.made[2:].data, self.made[2:].offsets), IriRef, validity=self.made[2:].validity
        )
        self.assertEqual(again.texts(), self.TEXTS[2:])

    def test_pickled_and_compared(self):
        for made in [self.made, self.made[3:7], self.made[::-2], self.made[:0]]:
            for protocol in range(pickle.HIGHEST_PROTOCOL + 1):
                copied = pickle.loads(pickle.dumps(made, protocol))
                self.assertEqual(copied, made)
                self.assertEqual(copied.texts(), made.texts())
                self.assertEqual(copied.offsets.itemsize, made.offsets.itemsize)
        self.assertLess(len(pickle.dumps(self.made[:0])), len(pickle.dumps(self.made)))
        self.assertNotEqual(self.made, self.made[1:])
        self.assertNotEqual(self.made, self.TEXTS)
        made = batch.normalize_column(*batch.column(["HTTP://a"] * 3))
        self.assertEqual(pickle.loads(pickle.dumps(made)).texts(), ["http://a"] * 3)
        self.assertEqual(repr(made), "<Column of 3 texts>")


if __name__ == "__main__":
    unittest.main()
