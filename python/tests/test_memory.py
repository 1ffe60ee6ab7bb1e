"""Calls keep no memory: what is allocated after many rounds is what was before."""

import gc
import subprocess
import sys
import tracemalloc
import unittest
from array import array

from fluent_uri import Iri, ParseError, ResolveError, Uri, _native, batch, decode, encode

ROUNDS = 1500


def rounds(count):
    base = Uri.parse("http://a/b/c")
    column = batch.column(["HTTP://A", "a b", "x:" + "a" * 5000])
    for _ in range(count):
        for text in ["http://a/b?c#d", "http://é/ü", "a b", "\ud800", "http://a/" + "b" * 3000]:
            try:
                value = Iri.parse(text)
                _ = value.host, value.path, value.normalize().path, value.to_uri(), hash(value)
                _ = value == value, value < value, repr(value), value.__reduce_ex__(2)
                _ = Iri.parse(value), Uri.try_parse(value), Iri.is_valid(value)
                _ = Iri.mend(value), Uri.mend(text), Uri.mend_link(f" {text} "), Uri.mend("a b")
                base.resolve(text)
            except ParseError:
                pass
        try:
            Uri.parse("x:y").resolve("z")
        except ResolveError:
            pass
        batch.normalize(["HTTP://A", "a b", "a:b", "\ud800", "é"])
        batch.parse(["http://a", "a b"])
        batch.is_valid(["http://a", "a b", "\ud800"])
        batch.mend(["http://a", "a b", "\ud800"])
        batch.parse(["a b", "//a b", "\ud800"], Uri, mend=True)
        base.join_link(" a b#c ", keep_fragment=False)
        Iri.try_parse("a b"), Iri.is_valid("\ud800")
        batch.normalize_column(*column).texts()


class Memory(unittest.TestCase):
    def test_no_references_are_kept(self):
        # What is made once, such as caches and free lists, is made before.
        rounds(ROUNDS)
        counted = [None, Uri, ParseError, "http://a/b?c#d"]
        gc.collect()
        before = [sys.getrefcount(it) for it in counted]
        blocks = sys.getallocatedblocks()
        rounds(ROUNDS)
        gc.collect()
        after = [sys.getrefcount(it) for it in counted]
        for it, one, other in zip(counted, before, after):
            self.assertLess(abs(other - one), ROUNDS / 4, it)
        self.assertLess(abs(sys.getallocatedblocks() - blocks), ROUNDS / 4)

    def test_the_process_does_not_grow(self):
        rounds(ROUNDS)
        before = resident()
        rounds(ROUNDS)
        self.assertLess(resident() - before, 2_000_000)


class Rooms(unittest.TestCase):
    """What calls by ctypes keep for their results."""

    def test_results_of_rising_sizes(self):
        rounds(10)
        before = resident()
        for size in range(1, 100_000, 97):
            self.assertEqual(len(encode(b"a" * size)), size)
            text = "x:" + "a" * size
            self.assertEqual(len(str(Uri(text).normalize())), size + 2)
        self.assertLess(resident() - before, 2_000_000)
        self.assertLessEqual(len(_native._rooms), 1)

    def test_results_longer_than_expected(self):
        for size in [100, 3000, 20_000, 30_000, 70_000]:
            self.assertEqual(encode(b"\0" * size), "%00" * size)
            self.assertEqual(decode("%00" * size), b"\0" * size)
            self.assertEqual(len(str(Iri("x:" + "é" * size).to_uri())), 2 + 6 * size)
        self.assertLessEqual(sum(it.size for it in _native._rooms), 65536)


class Slices(unittest.TestCase):
    def test_a_few_texts_of_a_large_column_take_little(self):
        count, text = 1_000_000, b"http://a/?123456789"
        data = text * count
        offsets = array("I", range(0, len(data) + 1, len(text)))
        base = Uri("x://y/")
        for call in [
            lambda **it: batch.normalize_column(data, offsets, **it),
            lambda **it: batch.to_uri_column(data, offsets, Iri, **it),
            lambda **it: batch.resolve_column(base, data, offsets, **it),
            lambda **it: batch.component_column(data, offsets, "query", **it),
            lambda **it: batch.relativize_column(base, data, offsets, **it),
            lambda **it: batch.mend_column(data, offsets, **it),
            lambda **it: batch.mend_link_column(data, offsets, **it),
            lambda **it: batch.normalize_column(data, offsets, mend=True, **it),
        ]:
            call(start=1, count=1)
            tracemalloc.start()
            made = call(start=500_000, count=10)
            _, most = tracemalloc.get_traced_memory()
            tracemalloc.stop()
            self.assertLess(most, 100_000)
            self.assertEqual((len(made), made.offsets[0]), (10, 0))

    def test_what_a_result_does_not_need_is_given_back(self):
        texts = ["HTTP://a/" + "./" * 10_000] * 100
        made = batch.normalize_column(*batch.column(texts))
        self.assertEqual(made.texts(), ["http://a/"] * 100)
        self.assertLess(sys.getsizeof(made.data.obj), 4000)


DENIED = """
import resource
from fluent_uri import Uri, batch
text = "x:" + "%7e" * 20_000_000
with open("/proc/self/statm") as file:
    taken = int(file.read().split()[0]) * 4096
resource.setrlimit(resource.RLIMIT_AS, (taken + 30_000_000,) * 2)
for call in [lambda: Uri.parse(text).normalize(), lambda: batch.normalize([text])]:
    try:
        call()
    except MemoryError:
        pass
    else:
        raise SystemExit("no MemoryError")
    assert str(Uri.parse("x:%7e").normalize()) == batch.normalize(["x:%7e"])[0] == "x:~"
"""


class Denied(unittest.TestCase):
    def test_denied_memory_is_an_error(self):
        ran = subprocess.run([sys.executable, "-c", DENIED], stderr=subprocess.PIPE, text=True)
        self.assertEqual((ran.returncode, ran.stderr), (0, ""))


def resident():
    with open("/proc/self/statm", encoding="ascii") as file:
        return int(file.read().split()[1]) * 4096


if __name__ == "__main__":
    unittest.main()
