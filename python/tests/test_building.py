"""What is built of components and replaced, compared with the rules of RFC 3986, section 3 and
appendix A, and of its section 5.3."""

import ipaddress
import itertools
import pickle
import random
import re
import unittest

from fluent_uri import BuildError, BuildErrorKind, Iri, IriRef, Reference, Uri, UriRef
from rows import KINDS, rows

NAMES = ["scheme", "userinfo", "host", "port", "path", "query", "fragment"]
# The rules of appendix A, of URIs.
UNRESERVED, SUB_DELIMS = r"[A-Za-z0-9\-._~]", r"[!$&'()*+,;=]"
ENCODED = "%[0-9A-Fa-f]{2}"
PCHAR = f"(?:{UNRESERVED}|{ENCODED}|{SUB_DELIMS}|[:@])"
RULES = {
    "scheme": r"[A-Za-z][A-Za-z0-9+\-.]*",
    "userinfo": f"(?:{UNRESERVED}|{ENCODED}|{SUB_DELIMS}|:)*",
    "port": "[0-9]*",
    "path": f"(?:{PCHAR}|/)*",
    "query": f"(?:{PCHAR}|[/?])*",
    "fragment": f"(?:{PCHAR}|[/?])*",
}
REG_NAME = f"(?:{UNRESERVED}|{ENCODED}|{SUB_DELIMS})*"
IPV_FUTURE = rf"\[[vV][0-9A-Fa-f]+\.(?:{UNRESERVED}|{SUB_DELIMS}|:)+\]"


def is_host(text):
    if re.fullmatch(REG_NAME, text) or re.fullmatch(IPV_FUTURE, text):
        return True
    if not re.fullmatch(r"\[[0-9A-Fa-f:.]*\]", text):
        return False
    try:
        ipaddress.IPv6Address(text[1:-1])
    except ValueError:
        return False
    return True


def is_of_its_rule(name, text):
    if name == "host":
        return is_host(text)
    return re.fullmatch(RULES[name], text) is not None


def recomposed(given):
    """The text of components, by section 5.3 and, of an authority, section 3.2."""
    text = "" if given["scheme"] is None else given["scheme"] + ":"
    if given["host"] is not None:
        text += "//" + ("" if given["userinfo"] is None else given["userinfo"] + "@")
        text += given["host"] + ("" if given["port"] is None else ":" + given["port"])
    text += given["path"] or ""
    text += "" if given["query"] is None else "?" + given["query"]
    return text + ("" if given["fragment"] is None else "#" + given["fragment"])


def wrong_together(kind, given):
    """What is wrong with components that are each of their rule, and in which."""
    scheme, host, path = given["scheme"], given["host"], given["path"] or ""
    if host is None and (given["userinfo"] is not None or given["port"] is not None):
        return "MISSING_COMPONENT", "host"
    if kind is Uri and scheme is None:
        return "MISSING_COMPONENT", "scheme"
    if host is not None and path and not path.startswith("/"):
        return "NONEMPTY_ROOTLESS_PATH", "path"
    if host is None and path.startswith("//"):
        return "PATH_STARTS_WITH_DOUBLE_SLASH", "path"
    if host is None and scheme is None and ":" in path.split("/")[0]:
        return "FIRST_PATH_SEGMENT_CONTAINS_COLON", "path"
    return None


def error_of(kind, given):
    try:
        kind.build(**given)
    except BuildError as error:
        return error
    return None


class Building(unittest.TestCase):
    def test_examples(self):
        made = Uri.build(scheme="foo", host="example.com", port="8042", path="/over/there",
                         query="name=ferret", fragment="nose")
        self.assertIs(type(made), Uri)
        self.assertEqual(str(made), "foo://example.com:8042/over/there?name=ferret#nose")
        self.assertEqual(str(Uri.build(scheme="urn", path="example:animal")), "urn:example:animal")
        self.assertEqual(str(UriRef.build()), "")
        self.assertEqual(str(IriRef.build(host="é", path="/漢", query="", fragment="𐌀")), "//é/漢?#𐌀")
        self.assertEqual(str(UriRef.build(userinfo="", host="", port="")), "//@:")

    def test_addresses_and_numbers(self):
        v4, v6 = ipaddress.ip_address("192.0.2.1"), ipaddress.ip_address("2001:db8::7")
        self.assertEqual(str(UriRef.build(host=v4, port=0)), "//192.0.2.1:0")
        self.assertEqual(str(UriRef.build(host=v6, port=65535)), "//[2001:db8::7]:65535")
        self.assertEqual(UriRef("//a:1").replace(host=v6, port=2).authority, "[2001:db8::7]:2")
        for wrong in [-1, 65536, 2**70]:
            with self.assertRaises(ValueError):
                UriRef.build(host="a", port=wrong)
        # An address of a zone is no host of RFC 3986.
        with self.assertRaises(BuildError) as raised:
            UriRef.build(host="[fe80::1%25eth0]")
        self.assertEqual(raised.exception.kind, BuildErrorKind.INVALID_IPV6_ADDR)

    def test_a_component_with_the_delimiter_of_another(self):
        for name, text, at in [
            ("scheme", "a:b", 1), ("userinfo", "a@b", 1), ("host", "a:80", 1), ("host", "a/b", 1),
            ("host", "a@b", 1), ("port", "80/a", 2), ("path", "/a?b", 2), ("path", "/a#b", 2),
            ("query", "a#b", 1), ("fragment", "a#b", 1), ("path", "/a b", 2), ("path", "/é", 1),
        ]:
            given = {"scheme": "x", "host": "h", **{name: text}}
            error = error_of(Uri, given)
            self.assertEqual((error.kind.name, error.component), ("UNEXPECTED_CHAR", name), text)
            self.assertEqual((error.index, error.char_index), (at, at))

    def test_messages(self):
        error = error_of(Iri, {"scheme": "x", "path": "/é b"})
        self.assertEqual(str(error), "unexpected character at index 3 of the path (character 2)")
        self.assertEqual((error.index, error.char_index), (3, 2))
        error = error_of(Uri, {"scheme": "x", "path": "/%2"})
        self.assertEqual(str(error), "invalid percent-encoded octet at index 1 of the path")
        error = error_of(UriRef, {"port": "1"})
        self.assertEqual(str(error), "missing component: host")
        error = error_of(Iri, {"scheme": "x", "path": "/\ud800"})
        self.assertEqual((error.kind.name, error.index), ("NOT_UTF8", 1))
        self.assertEqual(pickle.loads(pickle.dumps(error)).args, error.args)

    def test_each_text_is_built_of_its_components(self):
        count = 0
        for _, _, fields, _ in rows():
            for text in fields:
                for kind in KINDS.values():
                    value = kind.try_parse(text)
                    if value is None:
                        continue
                    given = {name: getattr(value, name) for name in NAMES}
                    self.assertEqual(kind.build(**given), value)
                    self.assertEqual(value.replace(), value)
                    count += 1
        self.assertGreater(count, 1000)

    def test_generated_components(self):
        some = random.Random(3)
        texts = ["", "a", "A1", "/", "//", "/a", "a/b", "a:b", ":", "?", "#", "@", "[", "[::1]",
                 "[::1", "[v1.a]", "[v1.]", "[1::2::3]", "1.2.3.4", "80", "%41", "%4", "é", " ",
                 "+", "a@b", "a?b", "a#b", "[::1]a", "[::1.2.3.4]", "[::ffff:1.2.3.256]", "'", "<"]
        built = 0
        for _ in range(20000):
            kind = some.choice([Uri, UriRef])
            given = {name: some.choice(texts) if some.random() < 0.6 else None for name in NAMES}
            malformed = [name for name in NAMES
                         if given[name] is not None and not is_of_its_rule(name, given[name])]
            error = error_of(kind, given)
            if malformed:
                order = ["scheme", "userinfo", "host", "port"]
                in_authority = [it for it in malformed if it in order]
                missing = (wrong_together(UriRef, given) or ("", ""))[1] == "host"
                if in_authority:
                    self.assertEqual(error.component, in_authority[0], given)
                elif missing:
                    self.assertEqual((error.kind.name, error.component),
                                     ("MISSING_COMPONENT", "host"), given)
                else:
                    self.assertEqual(error.component, malformed[0], given)
                continue
            wrong = wrong_together(kind, given)
            if wrong:
                self.assertEqual((error.kind.name, error.component), wrong, given)
                continue
            self.assertIsNone(error, given)
            made = kind.build(**given)
            self.assertEqual(str(made), recomposed(given))
            self.assertEqual({name: getattr(made, name) for name in NAMES},
                             {**given, "path": given["path"] or ""})
            built += 1
        self.assertGreater(built, 100)

    def test_a_long_component(self):
        path = "/" + "a" * 200_000
        made = Uri.build(scheme="x", path=path)
        self.assertEqual(made.path, path)
        self.assertEqual(str(made.replace(path="y")), "x:y")

    def test_names_are_needed(self):
        for call in [Uri.build, Uri("a:b").replace]:
            with self.assertRaises(TypeError):
                call("http")
            with self.assertRaises(TypeError):
                call(authority="a")
        with self.assertRaises(TypeError):
            Reference.build(scheme="a")

    def test_wrong_types(self):
        types = [b"a", 2.5, True, ["a"], object(), bytearray()]
        for name, wrong in itertools.product(NAMES, types):
            with self.assertRaises(TypeError, msg=(name, wrong)):
                Uri.build(**{"scheme": "x", "host": "h", name: wrong})
            with self.assertRaises(TypeError, msg=(name, wrong)):
                Uri("x://h").replace(**{name: wrong})
        for name in set(NAMES) - {"port"}:
            with self.assertRaises(TypeError):
                Uri.build(**{"scheme": "x", "host": "h", name: 5})


class Replacing(unittest.TestCase):
    def test_each_component(self):
        value = Uri("http://u@h:80/p?q#f")
        for given, wanted in [
            ({"scheme": "x"}, "x://u@h:80/p?q#f"), ({"userinfo": "v"}, "http://v@h:80/p?q#f"),
            ({"userinfo": None}, "http://h:80/p?q#f"), ({"host": ""}, "http://u@:80/p?q#f"),
            ({"port": 81}, "http://u@h:81/p?q#f"), ({"port": None}, "http://u@h/p?q#f"),
            ({"path": ""}, "http://u@h:80?q#f"), ({"path": None}, "http://u@h:80?q#f"),
            ({"query": ""}, "http://u@h:80/p?#f"), ({"query": None}, "http://u@h:80/p#f"),
            ({"fragment": "/?"}, "http://u@h:80/p?q#/?"), ({"fragment": None}, "http://u@h:80/p?q"),
            ({"host": None, "userinfo": None, "port": None}, "http:/p?q#f"),
        ]:
            made = value.replace(**given)
            self.assertIs(type(made), Uri)
            self.assertEqual(str(made), wanted)
        self.assertEqual(str(value), "http://u@h:80/p?q#f")

    def test_what_cannot_be_removed(self):
        value = Uri("http://u@h:80/p?q#f")
        for given, component in [({"host": None}, "host"), ({"scheme": None}, "scheme")]:
            with self.assertRaises(BuildError) as raised:
                value.replace(**given)
            error = raised.exception
            self.assertEqual((error.kind.name, error.component), ("MISSING_COMPONENT", component))

    def test_a_subclass(self):
        class Mine(Uri):
            @property
            def path(self):
                return "/elsewhere"

        made = Mine("x://h/p").replace(query="q")
        self.assertIs(type(made), Mine)
        self.assertEqual(str(made), "x://h/p?q")
        self.assertIs(type(Mine.build(scheme="x")), Mine)


def by_codec(host):
    return host.encode("idna").decode()


class AsciiHosts(unittest.TestCase):
    def test_only_the_host_changes(self):
        # The name is that of RFC 3492, section 7.1 (D), in lower case.
        iri = Iri("http://ü@pročprostěnemluvíčesky.example:80/é?ü#ß")
        wanted = "http://%C3%BC@xn--proprostnemluvesky-uyb24dma41a.example:80/%C3%A9?%C3%BC#%C3%9F"
        self.assertEqual(str(iri.to_uri(ascii_host=by_codec)), wanted)
        made = IriRef("//bücher/é").to_uri(ascii_host=by_codec)
        self.assertEqual((type(made), str(made)), (UriRef, "//xn--bcher-kva/%C3%A9"))

    def test_a_host_that_is_ascii_stays(self):
        for text in ["http://A%C3%BC/é", "http://[::1]/é", "http:é", "http:///é", "x://1.2.3.4/é"]:
            made = Iri(text).to_uri(ascii_host=lambda host: self.fail(host))
            self.assertEqual(made, Iri(text).to_uri())

    def test_what_the_function_returns_is_tested(self):
        for wrong, error in [("a:1", BuildError), ("a/b", BuildError), ("é", ValueError),
                             (b"a", TypeError), (None, TypeError)]:
            with self.assertRaises(error):
                Iri("http://é/").to_uri(ascii_host=lambda host: wrong)
        with self.assertRaises(ZeroDivisionError):
            Iri("http://é/").to_uri(ascii_host=lambda host: 1 // 0)
        for wrong in ["idna", 1, b"", object()]:
            for text in ["http://é/", "http://a/", "a:"]:
                with self.assertRaises(TypeError):
                    Iri(text).to_uri(ascii_host=wrong)
        for no in [None, False]:
            self.assertEqual(str(Iri("http://é/").to_uri(ascii_host=no)), "http://%C3%A9/")


if __name__ == "__main__":
    unittest.main()
