"""The classes of the kinds: their base, subclasses, calls of a class, a kind made of another."""

import copy
import inspect
import pickle
import unittest

import fluent_uri
from fluent_uri import Iri, IriRef, ParseError, ParseErrorKind, Reference, Uri, UriRef

KINDS = [Uri, UriRef, Iri, IriRef]
NAMES = ["scheme", "authority", "userinfo", "host", "port", "path", "query", "fragment"]


def components(value):
    return [getattr(value, it) for it in NAMES]


class Tests(unittest.TestCase):
    """Tests of texts without exceptions, and kinds made of one another."""

    TEXTS = ["http://a/b", "a", "", "http://é/", "é", "a b", "%zz", "\ud800", "x:" + "é" * 3000]

    def test_is_valid_and_try_parse_agree_with_parse(self):
        class Link(Iri):
            pass

        for kind in [*KINDS, Link]:
            for text in self.TEXTS:
                try:
                    wanted = kind.parse(text)
                except ParseError:
                    wanted = None
                self.assertIs(kind.is_valid(text), wanted is not None)
                made = kind.try_parse(text)
                self.assertEqual(made, wanted)
                if made is not None:
                    self.assertIs(type(made), kind)
                    self.assertEqual(components(made), components(wanted))

    def test_a_kind_of_the_value_of_another(self):
        for given in KINDS:
            for text in self.TEXTS:
                value = given.try_parse(text)
                if value is None:
                    continue
                for kind in KINDS:
                    self.assertIs(kind.is_valid(value), kind.is_valid(text))
                    self.assertEqual(kind.try_parse(value), kind.try_parse(text))
                    if kind.is_valid(text):
                        for made in [kind.parse(value), kind(value)]:
                            self.assertEqual((type(made), str(made)), (kind, text))
                            self.assertEqual(components(made), components(value))
        with self.assertRaises(ParseError) as caught:
            Uri.parse(Iri("http://é/"))
        error = caught.exception
        self.assertEqual((error.kind, error.index), (ParseErrorKind.UNEXPECTED_CHAR, 7))
        with self.assertRaises(ParseError):
            Iri.parse(UriRef("a"))

    def test_a_value_of_the_kind_is_itself(self):
        class Link(Uri):
            pass

        value, link = Uri("a:b"), Link("a:b")
        for made in [Uri.parse(value), Uri.try_parse(value), Uri(value)]:
            self.assertIs(made, value)
        link.note = 1
        for made in [Link.parse(link), Link(link), Uri.parse(link), Link.parse(value)]:
            self.assertIsNot(made, link)
            self.assertEqual(str(made), "a:b")
        self.assertFalse(hasattr(Link.parse(link), "note"))

    def test_the_base_of_all_kinds(self):
        for kind in KINDS:
            self.assertTrue(issubclass(kind, Reference))
            self.assertIsInstance(kind("a:b"), Reference)
        self.assertFalse(isinstance("a:b", Reference) or issubclass(str, Reference))

        class Other(Reference):
            pass

        for cls in [Reference, Other]:
            for call in [cls, cls.__new__]:
                with self.assertRaises(TypeError):
                    call(cls, "a:b") if call is cls.__new__ else call("a:b")
            with self.assertRaises(TypeError):
                fluent_uri.batch.parse(["a:b"], cls)
        with self.assertRaises(TypeError):
            Uri("a:b").__class__ = Other
        try:
            strange = type("Strange", (Reference, int), {})(5)
        except TypeError:
            return
        for call in [Uri.parse, fluent_uri.batch.column, bytes, Uri("a:b").resolve]:
            with self.assertRaises((TypeError, AttributeError)):
                call(strange)


class ClassCalls(unittest.TestCase):
    """They are class methods, whatever keeps those of a kind."""

    CALLS = ["parse", "try_parse"]

    def test_each_class_makes_values_of_its_own(self):
        class Link(Uri):
            @classmethod
            def parse(cls, text):
                return super().parse(text.strip())

            @classmethod
            def super_of(cls, name):
                return getattr(super(), name)

        class Other(Link):
            pass

        for cls in [*KINDS, Link, Other]:
            for made in [cls.parse("a:b"), cls.try_parse("a:b"), cls("a:b")]:
                self.assertIs(type(made), cls)
            for name in self.CALLS:
                self.assertIs(type(getattr(cls("a:b"), name)("c:d")), cls)
        self.assertEqual(Link.parse(" a:b\n"), Link("a:b"))
        self.assertIs(type(Other.super_of("parse")("a:b")), Other)
        self.assertIs(type(Uri.parse("a:b")), Uri)

    def test_what_python_shows_of_them(self):
        for kind in KINDS:
            for name in [*self.CALLS, "is_valid"]:
                call = getattr(kind, name)
                self.assertEqual(call, getattr(kind, name))
                self.assertIs(call.__self__, kind)
                self.assertEqual((call.__name__, call.__doc__[:7]), (name, "Returns"))
                self.assertEqual(list(inspect.signature(call).parameters), ["text"])
                self.assertIn(name, dir(kind))
                self.assertEqual(pickle.loads(pickle.dumps(call))("a:b"), call("a:b"))
                self.assertEqual(copy.copy(call)("a:b"), call("a:b"))
                for words in [(), ("a:b", "c:d")]:
                    with self.assertRaises(TypeError):
                        call(*words)
                with self.assertRaises(TypeError):
                    call(text="a:b")

    @unittest.skipUnless(fluent_uri.is_compiled, "they are Python's own")
    def test_no_other_is_made(self):
        cls = type(vars(Uri)["parse"])
        for call in [cls, cls.__new__, object.__new__]:
            with self.assertRaises(TypeError):
                call() if call is cls else call(cls)

    def test_bound_to_what_is_no_class_of_the_kind(self):
        call = vars(Uri).get("parse") or vars(fluent_uri._calls.Reference)["parse"]
        for words in [(None, int), (5, None), (5, int)]:
            with self.assertRaises(TypeError):
                call.__get__(*words)("a:b")


if __name__ == "__main__":
    unittest.main()
