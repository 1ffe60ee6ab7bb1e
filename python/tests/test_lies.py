"""Subclasses that say what is not so, copies of what they make, and handlers of signals that look
on: no crash, and no untrue value."""

import copy
import gc
import pickle
import signal
import sys
import types
import unittest
from array import array

from fluent_uri import Iri, IriRef, ParseError, Uri, UriRef, _calls, batch, decode, encode

KINDS = [Uri, UriRef, Iri, IriRef]
VALUE = Uri("x://a/b")
COUNT = 20011


class Text(str):
    """A str that says of itself what is not so."""

    def encode(self, *_):
        return b"x" * 10

    def __len__(self):
        return 10**9

    def __str__(self):
        return "other"

    def __format__(self, how):
        return "other"

    def __eq__(self, other):
        return True

    __hash__ = str.__hash__


class Bytes(bytes):
    def __len__(self):
        return 10**9

    def __bytes__(self):
        return b"other"


class Lies(unittest.TestCase):
    """Subclasses of which methods return what is not so: the library reads what is there."""

    def test_a_text(self):
        self.assertEqual(encode(Text("a b")), "a%20b")
        self.assertEqual(encode(Bytes(b"a b")), "a%20b")
        self.assertEqual(decode(Text("%61")), b"a")
        self.assertEqual(str(VALUE.with_fragment(Text("c"))), "x://a/b#c")
        self.assertEqual(str(VALUE.resolve(Text("c"))), "x://a/c")
        self.assertEqual(batch.parse([Text("a:b")]), [Uri("a:b")])
        self.assertEqual(batch.normalize([Text("a:%7e")]), ["a:~"])
        self.assertEqual(batch.column([Text("ab")]), (b"ab", array("I", [0, 2])))
        self.assertEqual(batch.component(["a:b"], Text("path")), ["b"])
        for kind in KINDS:
            value = kind(Text("a:b"))
            self.assertEqual((str(value), type(str(value)), value.path), ("a:b", str, "b"))

    def test_a_value(self):
        class Link(Uri):
            def __bytes__(self):
                return Bytes(b"x")

            def __str__(self):
                return "y:other"

        base = Link("x://a/b")
        self.assertEqual(batch.resolve(base, ["c"]), ["x://a/c"])
        self.assertEqual(Uri("z:").resolve(base), Uri("x://a/b"))
        self.assertEqual(Uri.__bytes__(base), b"x://a/b")
        self.assertEqual(type(base).with_fragment(base, "c").fragment, "c")
        self.assertEqual(str.__str__(pickle.loads(pickle.dumps(Uri("x:y"))).path), "y")

    def test_a_name_that_is_no_text(self):
        class Meta(type):
            @property
            def __name__(cls):
                return 5

        class Link(Uri, metaclass=Meta):
            pass

        self.assertEqual(repr(Link("a:b")), "5('a:b')")

    def test_the_class_of_a_value_is_of_its_kind(self):
        class Link(Uri):
            __slots__ = ()

        for kind in KINDS:
            for other in KINDS:
                value = kind("a:b")
                for assign in [setattr, object.__setattr__, type(value).__setattr__]:
                    if other is kind:
                        assign(value, "__class__", other)
                    else:
                        with self.assertRaises(TypeError):
                            assign(value, "__class__", other)
                self.assertIs(type(value), kind)
        value = Uri("a:%7e")
        try:
            value.__class__ = Link
        except TypeError:
            pass
        self.assertEqual((type(value.normalize()), str(value.normalize())), (type(value), "a:~"))

    def test_a_value_without_a_text(self):
        """There is none, or it has nothing."""
        for kind in KINDS:
            try:
                value = object.__new__(kind)
            except TypeError:
                continue
            for call in [
                *(str, repr, hash, bytes, copy.copy, pickle.dumps, kind.normalize, VALUE.resolve),
                *(lambda it: it.path, lambda it: it.host_kind, lambda it: it == it),
                *(lambda it: it.with_fragment(None), lambda it: batch.resolve(it, ["a"])),
            ]:
                with self.assertRaises(TypeError):
                    call(value)
            self.assertFalse(hasattr(value, "other"))

    def test_what_the_package_asks_its_base_for(self):
        for given in [5, None, int, "Uri", Uri("a:b"), Iri, IriRef, _calls.Iri]:
            with self.assertRaises(TypeError):
                Iri("a:b")._to_uri(given)
            with self.assertRaises(TypeError):
                Iri("a:b")._to_uri_with_ascii_host(given)
        for given in [5, None, int, "Uri", Iri, Uri, UriRef]:
            with self.assertRaises(TypeError):
                Iri("a:b")._relativize("a:b", given)
        for value in [Uri("a:b"), UriRef("a:b")]:
            for kind in KINDS:
                with self.assertRaises(TypeError):
                    value._to_uri(kind)
                with self.assertRaises(TypeError):
                    value._to_uri_with_ascii_host(kind)
        with self.assertRaises(TypeError):
            _calls.kind_of(5)
        for given in [5, None, "a:b", Uri, object()]:
            with self.assertRaises(TypeError):
                _calls.text_of(given)
        for given in [["a:b"], None, 5]:
            with self.assertRaises((TypeError, AttributeError)):
                _calls.parse_all(Uri, given if given != ["a:b"] else 5)


class Ends(unittest.TestCase):
    """What a subclass does at the end of a value, and what a collector's callback looks at: each
    value that they see has its text."""

    REJECTED = ["a b", "\ud800", "http://[a"]

    def reject(self, cls):
        for text in self.REJECTED:
            self.assertIsNone(cls.try_parse(text))
            self.assertEqual(batch.parse([text], cls), [None])
            for call in [cls, cls.parse]:
                with self.assertRaises(ParseError):
                    call(text)

    def test_a_rejected_text_ends_no_value(self):
        ends = []

        class Link(Uri):
            def __del__(self):
                ends.append((str(self), self.path))

        class Slotted(Iri):
            __slots__ = ()

            def __del__(self):
                ends.append((str(self), self.path))

        for cls in [Link, Slotted]:
            self.reject(cls)
            self.assertEqual(ends, [])
            cls.parse("x://a/b").normalize()
            cls.parse("X://a/c").normalize()
            wanted = [("x://a/b", "/b"), ("X://a/c", "/c"), ("x://a/c", "/c")]
            self.assertEqual(sorted(ends), sorted(wanted))
            ends.clear()

    def test_a_callback_of_the_collector(self):
        class Link(Uri):
            pass

        seen = []

        def look(*_):
            seen.extend(str(it) for it in gc.get_objects() if type(it) is Link)

        before = gc.get_threshold()
        self.addCleanup(gc.set_threshold, *before)
        gc.callbacks.append(look)
        self.addCleanup(gc.callbacks.remove, look)
        gc.set_threshold(1)
        for _ in range(5):
            self.reject(Link)
            kept = [Link(f"a:{it}") for it in range(3)]
        self.assertEqual(len(kept), 3)
        self.assertLessEqual(set(seen), {"a:0", "a:1", "a:2"})


class Copies(unittest.TestCase):
    def test_a_subclass_with_attributes_and_a_new_of_its_own(self):
        class Link(Uri):
            def __new__(cls, text):
                return super().__new__(cls, f"x:{text}")

        class Slotted(Iri):
            __slots__ = ("note",)

        # pickle finds them by their names.
        Link.__qualname__, Slotted.__qualname__ = "Link", "Slotted"
        module = types.ModuleType("of_the_test")
        module.Link, module.Slotted = Link, Slotted
        Link.__module__ = Slotted.__module__ = module.__name__
        sys.modules[module.__name__] = module
        self.addCleanup(sys.modules.pop, module.__name__)
        link, slotted = Link("y"), Slotted("x:é")
        link.note = slotted.note = ["a"]
        for value in [link, slotted]:
            copies = [copy.copy(value), copy.deepcopy(value)]
            copies += [pickle.loads(pickle.dumps(value, it)) for it in range(6)]
            for made in copies:
                self.assertEqual((type(made), made, made.note), (type(value), value, ["a"]))
                self.assertEqual((made.path, made.scheme), (value.path, "x"))

    def test_a_value_of_an_earlier_version_is_read(self):
        self.assertEqual(pickle.loads(b"cfluent_uri\nUri\n(Va:b\ntR."), Uri("a:b"))


class Signals(unittest.TestCase):
    def handle(self, call):
        before = signal.signal(signal.SIGALRM, lambda *_: call())
        self.addCleanup(signal.signal, signal.SIGALRM, before)
        self.addCleanup(signal.setitimer, signal.ITIMER_REAL, 0)

    def test_a_handler_that_looks_at_all_objects(self):
        looks = []

        def look():
            for it in gc.get_objects():
                if type(it) is list and len(it) == COUNT:
                    repr(it)
            looks.append(1)
            signal.setitimer(signal.ITIMER_REAL, 0.002)

        self.handle(look)
        texts = tuple(f"http://a/{it}" for it in range(COUNT))
        for call in [batch.parse, batch.normalize]:
            looks.clear()
            signal.setitimer(signal.ITIMER_REAL, 0.002)
            while len(looks) < 20:
                made = call(texts)
            signal.setitimer(signal.ITIMER_REAL, 0)
            self.assertEqual(tuple(map(str, made)), texts)
            self.assertTrue(gc.is_tracked(made))

    def test_a_handler_that_raises(self):
        def stop():
            raise KeyboardInterrupt

        self.handle(stop)
        for call in [batch.parse, batch.normalize]:
            signal.setitimer(signal.ITIMER_REAL, 0.01)
            with self.assertRaises(KeyboardInterrupt):
                while True:
                    call(["a:b"] * COUNT)


if __name__ == "__main__":
    unittest.main()
