"""Tests normal_form_filter, and crawls a site on loopback by it."""

import json
import pathlib
import subprocess
import sys
import tempfile
import unittest
from types import SimpleNamespace

import scrapy
from normal_form_filter import NormalFormDupeFilter, NormalFormFingerprinter, normal_url
from scrapy import Request
from scrapy.utils.request import fingerprint as stock_fingerprint
from site_for_crawls import PAIRS, SPELLINGS

HERE = pathlib.Path(__file__).resolve().parent
sys.path.append(str(HERE.parent))

import differences  # noqa: E402 (it is beside the examples)


def fingerprint(url, **others):
    return NormalFormFingerprinter().fingerprint(Request(url, **others))


class Filter(unittest.TestCase):
    def test_equivalent_urls_have_one_fingerprint(self):
        # RFC 3986, section 6.2.2, has the first two.
        for one, other in (
            ("http://a/b/c/%7Bfoo%7D", "http://a/./b/../b/%63/%7bfoo%7d"),
            ("http://h/~smith/", "HTTP://H/%7Esmith/"),
            ("http://example.com", "http://example.com:80/"),
            ("https://h/?a", "https://h:443/?a"),
            ("http://h?a", "http://h/?a"),
            ("http://h/a b", "http://h/a%20b"),
            ("http://h/#a", "http://h/#b"),
        ):
            self.assertEqual(fingerprint(one), fingerprint(other), (one, other))
        for path in ("/~1", "/~1?a=~"):
            self.assertEqual(len({fingerprint(it(path)) for it in SPELLINGS}), 1, path)

    def test_other_urls_have_others(self):
        made = [fingerprint(f"http://h{it}") for pair in PAIRS for it in pair]
        made += [fingerprint(f"http://{it}") for it in ("U@h/", "u@h/", "h/b", "h:8080/b")]
        self.assertEqual(len(set(made)), len(made))

    def test_method_and_body_count(self):
        urls = "http://h/", "http://h/1"
        made = {
            fingerprint(url, method=method, body=body)
            for url in urls
            for method in ("GET", "POST", "POST1")
            for body in (b"", b"1", b"11")
        }
        self.assertEqual(len(made), 18)

    def test_a_url_that_cannot_be_mended_is_a_text_of_its_own(self):
        for it in ("http://a b/", "http://[/", "http://a b/#c", "http://h:x/", "\ud800:"):
            self.assertEqual(normal_url(it), it)
        self.assertNotEqual(fingerprint("http://a b/"), fingerprint("http://a%20b/"))
        for it in (None, b"http://h/", 1, ["http://h/"]):
            self.assertRaises(TypeError, normal_url, it)

    def test_a_url_may_be_long(self):
        long = "http://h/" + "%7e/../" * 1_000_000
        self.assertEqual(normal_url(f"{long}a"), "http://h/a")

    def test_what_was_seen_is_kept_on_the_disk(self):
        with tempfile.TemporaryDirectory() as folder:
            for wanted in (False, True):
                it = NormalFormDupeFilter(folder, fingerprinter=SimpleNamespace())
                self.assertEqual(it.request_seen(Request("http://h:80/a")), wanted)
                self.assertTrue(it.request_seen(Request("HTTP://H/./a#b")))
                self.assertFalse(it.request_seen(Request(f"http://h/{wanted}")))
                it.close("finished")

    def test_a_crawl_asks_for_each_page_once(self):
        made = subprocess.run(
            [sys.executable, HERE / "crawl"], stdout=subprocess.PIPE, check=True, timeout=300
        )
        told = json.loads(made.stdout)
        print(f"\nscrapy: {json.dumps(told)}")
        ours = told["normal form"]
        self.assertEqual(ours["requests"], ours["pages"] + 1)
        self.assertEqual(ours["pages asked for"], ours["pages"])
        for it in ("not found", "pages asked for again", "pages never asked for"):
            self.assertEqual(ours[it], 0)

    def test_differences(self):
        def same(by):
            return {"same": lambda *urls: len({by(Request(it)) for it in urls}) == 1}

        ours = same(NormalFormFingerprinter().fingerprint)
        differences.check(self, "Scrapy", scrapy.__version__, same(stock_fingerprint), ours)


if __name__ == "__main__":
    unittest.main()
