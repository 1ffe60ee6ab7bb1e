"""The host and the port of a text: addresses against `ipaddress`, names in ASCII against the
package `idna`, ports against `int`, and origins against RFC 6454."""

import ipaddress
import os
import pathlib
import pickle
import random
import re
import subprocess
import sys
import unittest

from fluent_uri import AsciiHostError, HostKind, Iri, IriRef, Reference, Uri, UriRef
from fluent_uri import _declarations, _native

try:
    import idna
except ImportError:
    idna = None

KINDS = [Uri, UriRef, Iri, IriRef]
COMPARE = pathlib.Path(__file__).resolve().parents[1] / "compare-idna"
# RFC 6454, sections 4 to 6: texts, and their origin.
ORIGINS = [
    ("http://example.com/", "http://example.com"),
    ("http://example.com:80/", "http://example.com"),
    ("http://example.com/path/file", "http://example.com"),
    ("HTTP://u:p@EXAMPLE.com:0080?q#f", "http://example.com"),
    ("http://%65xample.com", "http://example.com"),
    ("http://example.com:8080/", "http://example.com:8080"),
    ("http://example.com:080808", None),
    ("http://example.com:08080/", "http://example.com:8080"),
    ("https://example.com:80/", "https://example.com:80"),
    ("https://example.com:443/", "https://example.com"),
    ("ftp://h:021", "ftp://h"),
    ("wss://[2001:DB8:0:0::1]:65535", "wss://[2001:db8::1]:65535"),
    ("ws://127.0.0.1:", "ws://127.0.0.1"),
    ("http://a_b%C3%A9!", "http://a_b%C3%A9!"),
    ("http://a:65536", None),
    ("http:///a", None),
    ("http://:80", None),
    ("http://u@/", None),
    ("http:a", None),
    ("foo://example.com", None),
    ("file:///etc/hosts", None),
    ("file://example.com/", None),
    ("data:,a", None),
    ("urn:a", None),
    ("about:blank", None),
]


# Hosts, and their names in ASCII: by UTS 46, and by RFC 3492, section 7.1 (A, B, D, I and L), in
# lower case.
NAMES = [
    ("bücher.de", "xn--bcher-kva.de"),
    ("BÜCHER.de", "xn--bcher-kva.de"),
    ("bu\u0308cher.de", "xn--bcher-kva.de"),
    ("b%C3%BCcher.de", "xn--bcher-kva.de"),
    ("faß.de", "xn--fa-hia.de"),
    ("βόλος.com", "xn--nxasmm1c.com"),
    ("日本語。ＪＰ", "xn--wgv71a119e.jp"),
    ("ليهمابتكلموشعربي؟", "xn--egbpdaj6bu4bxfgehfvwxn"),
    ("他们为什么不说中文", "xn--ihqwcrb4cv8a8dqg056pqjye"),
    ("pročprostěnemluvíčesky", "xn--proprostnemluvesky-uyb24dma41a"),
    ("почемужеонинеговорятпорусски", "xn--b1abfaaepdrnnbgefbadotcwatmq2g4l"),
    ("3年b組金八先生", "xn--3b-ww4c5e180e575a65lsy2b"),
    ("１２７.0.0.1", "127.0.0.1"),
]
# Hosts that stay, whatever DNS makes of them.
KEPT = ["Example.com", "a_b%21", "%41%2F", "xn--9ca", "XN--a", "-", "", "127.0.0.1", "[::1]",
        "[v1.a]"]
REJECTED = [("%FF", "NAME_NOT_UTF8"), ("%C3%28.é", "NAME_NOT_UTF8"), ("a..é", "INVALID_NAME"),
            ("a_é", "INVALID_NAME"), ("-é", "INVALID_NAME"), ("é" * 64, "INVALID_NAME"),
            ("xn--a.é", "INVALID_NAME"), ("é%20", "INVALID_NAME"), ("é%2F", "INVALID_NAME")]


class AsciiHosts(unittest.TestCase):
    def test_names(self):
        for host, name in [*NAMES, *((it, it) for it in KEPT)]:
            value = IriRef.parse(f"//u@{host}:80/é?é#é")
            self.assertEqual(value.ascii_host, name, host)
            made = value.to_uri(ascii_host=True)
            self.assertEqual((type(made), str(made)),
                             (UriRef, f"//u@{name}:80/%C3%A9?%C3%A9#%C3%A9"))
            self.assertEqual(made.ascii_host, name)
            self.assertIs(type(Iri(f"x://{host}").to_uri(ascii_host=True)), Uri)
            if host.isascii():
                for kind in KINDS:
                    self.assertEqual(kind.parse(f"x://{host}").ascii_host, name)

    def test_a_text_without_a_host(self):
        for text in ["", "/é", "?//é", "urn:é"]:
            value = IriRef.parse(text)
            self.assertIsNone(value.ascii_host)
            self.assertEqual(value.to_uri(ascii_host=True), value.to_uri())

    def test_rejected_hosts(self):
        for host, kind in REJECTED:
            value = IriRef.parse(f"//{host}/")
            for call in [lambda: value.ascii_host, lambda: value.to_uri(ascii_host=True),
                         lambda: Iri(f"x://{host}").to_uri(ascii_host=True)]:
                with self.assertRaises(AsciiHostError, msg=host) as raised:
                    call()
                self.assertEqual(raised.exception.kind.name, kind, host)
                again = pickle.loads(pickle.dumps(raised.exception))
                self.assertEqual((again.kind, str(again)),
                                 (raised.exception.kind, str(raised.exception)))

    @unittest.skipUnless(idna, "there is no package idna")
    @unittest.skipIf("TESTED_ONCE" in os.environ, "it does not hang on how calls are made")
    def test_names_by_another_library(self):
        """Random hosts: each name that the package `idna` has is our name; none is rejected."""
        ran = subprocess.run([sys.executable, COMPARE, "2000"], capture_output=True, text=True)
        self.assertEqual(ran.returncode, 0, ran.stdout[-2000:] + ran.stderr)
        same = re.search(r"(\d+) the same name", ran.stdout)
        self.assertGreater(int(same[1]) if same else 0, 500, ran.stdout)


class Hosts(unittest.TestCase):
    def test_addresses(self):
        source = random.Random(6)
        for _ in range(300):
            v4 = ipaddress.IPv4Address(source.getrandbits(32))
            bits = source.getrandbits(128) & source.choice([2**128 - 1, 0xFFFF0000FFFF, 2**112])
            v6 = ipaddress.IPv6Address(bits)
            for kind in KINDS:
                for scheme in ["x:", ""] if kind in (UriRef, IriRef) else ["x:"]:
                    self.assertEqual(kind.parse(f"{scheme}//{v4}:1/a").host_address, v4)
                    for text in [v6.compressed, v6.exploded, v6.compressed.upper()]:
                        found = kind.parse(f"{scheme}//u@[{text}]").host_address
                        self.assertEqual((found, type(found)), (v6, ipaddress.IPv6Address))

    def test_what_is_no_address(self):
        for host in ["a", "", "127.1", "256.0.0.1", "01.2.3.4", "1.2.3.4.", "%31.2.3.4", "[v1.a]"]:
            self.assertIsNone(UriRef.parse(f"//{host}").host_address, host)
        for text in ["", "/127.0.0.1", "a:127.0.0.1", "?//127.0.0.1"]:
            self.assertIsNone(UriRef.parse(text).host_address, text)
        self.assertIsNone(IriRef.parse("//１２７.0.0.1").host_address)
        self.assertIs(UriRef.parse("//[v1.a]").host_kind, HostKind.IPV_FUTURE)

    def test_an_address_builds_its_host(self):
        for text in ["//192.0.2.1", "//[2001:db8::7]"]:
            uri = UriRef.parse(text)
            self.assertEqual(UriRef.build(host=uri.host_address), uri)

    def test_ports(self):
        for number in [0, 1, 80, 8080, 65535]:
            for zeros in ["", "0", "0" * 30]:
                self.assertEqual(UriRef.parse(f"//h:{zeros}{number}").port_number, number)
        for text in ["//h", "//h:", "", "a:80", "//u:80@h"]:
            self.assertIsNone(UriRef.parse(text).port_number, text)
        for number in [65536, 65536 + 80, 2**32 + 80, 2**64 + 80, 10**400]:
            with self.assertRaisesRegex(ValueError, "above 65535"):
                _ = Iri.parse(f"x://h:{number}").port_number

    def test_default_ports(self):
        uri = Uri.parse("HTTPS://a:8443/")
        self.assertEqual((uri.port_number, uri.default_port), (8443, 443))
        self.assertEqual(Iri.parse("ws:").default_port, 80)
        for text in ["urn:a", "httpx://a", "mailto:a"]:
            self.assertIsNone(Uri.parse(text).default_port)
        self.assertIsNone(UriRef.parse("//a:80").default_port)
        # A default port is what normalising leaves out.
        for scheme in ["http", "https", "ftp", "ws", "ldap", "foo"]:
            default = Uri.parse(f"{scheme}:").default_port
            for port in [21, 80, 389, 443]:
                normal = Uri.parse(f"{scheme}://h:{port}").normalize()
                self.assertEqual(normal.port is None, port == default)

    def test_origins(self):
        for text, origin in ORIGINS:
            for kind in [Uri, UriRef]:
                self.assertEqual(kind.parse(text).origin, origin, text)
        for text in ["//example.com/", "example.com", ""]:
            self.assertIsNone(UriRef.parse(text).origin)

    def test_an_origin_is_its_own(self):
        for text, origin in ORIGINS:
            if origin is not None:
                self.assertEqual(Uri.parse(origin).origin, origin)
                self.assertEqual(Uri.parse(text).normalize().origin, origin)
                self.assertEqual(Uri.parse(origin + "/a?b#c").origin, origin)

    def test_an_iri_has_the_origin_of_a_uri(self):
        self.assertFalse(hasattr(Iri.parse("http://a"), "origin"))
        iri = Iri.parse("http://bücher.example:80/")
        for ascii_host in [True, lambda host: host.encode("idna").decode()]:
            made = iri.to_uri(ascii_host=ascii_host)
            self.assertEqual(made.origin, "http://xn--bcher-kva.example")

    def test_subclasses(self):
        class Own(Uri):
            host = scheme = port = None

            def __str__(self):
                return "other"

        own = Own("http://127.0.0.1:81/")
        self.assertEqual(own.host_address, ipaddress.ip_address("127.0.0.1"))
        self.assertEqual((own.port_number, own.default_port), (81, 80))
        self.assertEqual(own.origin, "http://127.0.0.1:81")
        self.assertEqual(own.ascii_host, "127.0.0.1")
        self.assertEqual(pickle.loads(pickle.dumps(Uri("ws://a"))).origin, "ws://a")

    def test_properties_are_read_only_and_of_values(self):
        for name in ["host_address", "ascii_host", "port_number", "default_port", "origin"]:
            with self.assertRaises(AttributeError):
                setattr(Uri("a:b"), name, None)
            for wrong in [None, 5, "http://a", b"http://a", object(), Uri]:
                with self.assertRaises(TypeError, msg=(name, wrong)):
                    getattr(Uri, name).fget(wrong)
        self.assertTrue(issubclass(Uri, Reference))

    def test_numbers_of_the_header(self):
        self.assertEqual(_declarations.PORTS["PORT_TOO_LARGE"], 65538)
        with self.assertRaises(ValueError):
            _native.port_number(4, b"a:b")


if __name__ == "__main__":
    unittest.main()
