"""Tests uri_formats, and runs the JSON-Schema test suite of Debian by it where that is."""

import pathlib
import sys
import unittest
from importlib import metadata
from urllib.parse import urljoin

import jsonschema
import suite
from jsonschema import Draft3Validator, Draft7Validator, RefResolutionError
from uri_formats import UriRefResolver, target, uri_format_checker

sys.path.append(str(pathlib.Path(__file__).resolve().parents[1]))

import differences  # noqa: E402 (it is beside the examples)

# The examples of RFC 3986, sections 1.1.2 and 5.4.
URIS = """ftp://ftp.is.co.za/rfc/rfc1808.txt http://www.ietf.org/rfc/rfc2396.txt
ldap://[2001:db8::7]/c=GB?objectClass?one mailto:John.Doe@example.com news:comp.infosystems.www
tel:+1-816-555-1212 telnet://192.0.2.16:80/ urn:oasis:names:specification:docbook:dtd:xml:4.1.2
http://a/b/c/d;p?q http:g g:h""".split()
REFERENCES = "g ./g g/ /g //g ?y g?y #s g#s g?y#s ;x g;x g;x?y#s . ./ .. ../ ../g ../..".split()
# (RFC 3986, sections 2, 3.1, 3.2.2 and 3.2.3)
NONE = "a:% a:%4 a:^ http://[::1 http://[1::2::3]/ http://h:x/".split() + ["http://a b/", "a:b\n"]


def checked(instance, name, validator=Draft7Validator):
    return uri_format_checker(validator).conforms(instance, name)


class Formats(unittest.TestCase):
    def test_uris(self):
        for it in URIS:
            self.assertTrue(checked(it, "uri") and checked(it, "iri"), it)
        for it in [*URIS, *REFERENCES, ""]:
            self.assertTrue(checked(it, "uri-reference") and checked(it, "iri-reference"), it)
        for it in [*REFERENCES, ""]:
            self.assertFalse(checked(it, "uri") or checked(it, "iri"), it)
        for it in NONE:
            for name in ("uri", "uri-reference", "iri", "iri-reference"):
                self.assertFalse(checked(it, name), (it, name))

    def test_iris(self):
        # (RFC 3987, section 2.2: private characters in a query alone)
        for it, valid in (("http://é/ü", True), ("a:?\ue000", True), ("a:\ue000", False)):
            self.assertEqual(checked(it, "iri"), valid, it)
            self.assertFalse(checked(it, "uri"), it)

    def test_an_instance_that_is_not_a_string_has_every_format(self):
        for it in (None, 1, 1.5, True, [], {}, b"\xff"):
            self.assertTrue(checked(it, "uri"), it)
        self.assertFalse(checked("a:\ud800", "iri"))
        self.assertFalse(checked("a:" + "%" * 1_000_000, "uri"))

    def test_drafts(self):
        self.assertTrue(checked("a b", "uri-reference", Draft3Validator))
        self.assertFalse(checked("a b", "uri", Draft3Validator))
        mine = jsonschema.validators.extend(Draft7Validator, {"mine": None})
        self.assertFalse(checked("a b", "iri", mine))
        # Stock checkers are as they were, and the formats of others too.
        self.assertIsNot(uri_format_checker().checkers, jsonschema.FormatChecker.checkers)
        self.assertFalse(checked("1.2.3", "ipv4"))


class References(unittest.TestCase):
    def valid(self, schema, instance, **store):
        made = UriRefResolver.from_schema(schema, id_of=Draft7Validator.ID_OF, **store)
        return Draft7Validator(schema, resolver=made).is_valid(instance)

    def test_equivalent_uris_are_of_one_document(self):
        store = {"http://example.com/a/~b": {"type": "integer"}}
        for it in ("HTTP://Example.com:80/a/./%7Eb", "../a/%7eb#", "//example.com/a/~b"):
            schema = {"$id": "http://example.com/c/d", "items": {"$ref": it}}
            self.assertTrue(self.valid(schema, [1], store=store), it)
            self.assertFalse(self.valid(schema, ["a"], store=store), it)

    def test_an_empty_fragment_is_of_the_document(self):
        made = UriRefResolver("", {})
        made.store["http://h/a#"] = {"b": 1}
        for it in ("http://h/a", "http://h/a#", "http://h:80/a#"):
            self.assertEqual(made.resolve(it)[1], {"b": 1})
        self.assertEqual(made.resolve("http://h/a#/b")[1], 1)

    def test_a_base_of_any_scheme(self):
        # RFC 3986, section 5.2.2. A `urn:` has no hierarchy, and a fragment is resolved against it.
        for base in ("urn:example:a", "tag:a,2000:b", "x:/a/b", ""):
            schema = {
                "$id": base,
                "definitions": {"a": {"type": "integer"}},
                "items": {"$ref": "#/definitions/a"},
            }
            self.assertTrue(self.valid(schema, [1]), base)
            self.assertFalse(self.valid(schema, ["a"]), base)
        other = {"definitions": {"b": {"type": "integer"}}, "$ref": "#/definitions/b"}
        schema = {"$id": "urn:example:a", "items": {"$ref": "urn:example:other"}}
        self.assertFalse(self.valid(schema, ["a"], store={"urn:example:other": other}))
        self.assertEqual(target("x:/a/b", "../c"), "x:/c")
        self.assertEqual(target("urn:a:b", "#c"), "urn:a:b#c")

    def test_a_space_in_a_pointer(self):
        names = {"a b": {"type": "integer"}}
        schema = {"definitions": names, "items": {"$ref": "#/definitions/a b"}}
        self.assertTrue(self.valid(schema, [1]))
        self.assertFalse(self.valid(schema, ["a"]))

    def test_what_has_no_target_is_a_named_error(self):
        for base, reference in (
            ("http://h/", "http://a b/"),
            ("http://h/", 1),
            ("http://h/", None),
            ("http://h/", {}),
            ("http://h/", b"a"),
            ("http://a b/", "c"),
            ("urn:a:b", "c"),
            ("http://h/", "//[1"),
        ):
            schema = {"$id": base, "items": {"$ref": reference}}
            resolver = UriRefResolver.from_schema(schema, id_of=Draft7Validator.ID_OF)
            self.assertRaises(RefResolutionError, resolver.resolve, reference)

    def test_a_malformed_id_is_of_nothing(self):
        schema = {
            "$id": "http://h/a",
            "items": {"$ref": "c"},
            "definitions": {"b": {"const": {"$id": "http://a b/"}}},
        }
        store = {"http://h/c": {"type": "integer"}}
        self.assertTrue(self.valid(schema, [1], store=store))
        self.assertFalse(self.valid(schema, ["a"], store=store))

    def test_differences(self):
        def calls(resolver, checker, target):
            def finds(uri, reference):
                handlers = dict.fromkeys(("http", "HTTP"), suite.no_network)
                made = resolver("", {}, store={uri: {}}, handlers=handlers)
                try:
                    return made.resolve(reference)[1] == {}
                except RefResolutionError:
                    return False

            def valid(name, text):
                return checker.conforms(text, name)

            return {"finds": finds, "valid": valid, "target": target}

        checker = Draft7Validator.FORMAT_CHECKER
        if "iri" not in checker.checkers:
            self.skipTest("stock has no formats of URIs (Debian: python3-rfc3987)")
        stock = calls(jsonschema.RefResolver, checker, urljoin)
        ours = calls(UriRefResolver, uri_format_checker(Draft7Validator), target)
        version = metadata.version("jsonschema")
        differences.check(self, "jsonschema", version, stock, ours)


class Suite(unittest.TestCase):
    def test_no_test_is_lost(self):
        if not suite.SUITE.is_dir():
            self.skipTest("there is no suite (Debian: json-schema-test-suite)")
        stock, ours, count = suite.run()
        print(f"\njsonschema: {count} tests of the suite: {len(stock)} pass, {len(ours)} with ours")
        self.assertGreater(count, 1_000)
        self.assertEqual(stock - ours, set())


if __name__ == "__main__":
    sys.exit(unittest.main())
