#!/usr/bin/python3
"""Loads the package into Chromium as a page without a bundler does, and makes calls of it.

usage: unbundled.py PACKAGE     (the folder of package.json; status 77: no chromium)
"""
import functools
import http.server
import shutil
import sys
import threading

for it in ["chromium", "chromedriver"]:
    if not shutil.which(it):
        print(f"unbundled: skipped: no {it}")
        sys.exit(77)
try:
    from selenium import webdriver
except ImportError:
    print("unbundled: skipped: no python3-selenium")
    sys.exit(77)
from selenium.webdriver.chrome.options import Options
from selenium.webdriver.chrome.service import Service

# What is imported, what is made of it, and what that must be.
CASES = [
    ("browser", "String(it.Uri.parse('HTTP://a:80/%7e').normalize())", "http://a/~"),
    ("browser", "it.Iri.parse('http://b\\u00fccher.example/').host", "b\u00fccher.example"),
    ("browser", "it.UriRef.mend('\\ufeffx y\\u{1f600}').path", "%EF%BB%BFx%20y%F0%9F%98%80"),
    ("browser", "['a:b', 'a b'].map(it.Uri.canParse)", [True, False]),
    ("browser", "it.Uri.parse('x://h/' + 'a'.repeat(1e6)).path.length", 1000001),
    ("browser", "thrown(() => it.Iri.parse('x:\\ud800'))", "not UTF-8 at index 2"),
    ("browser", "thrown(() => it.Uri.build({}))",
     "load it before this call: import 'fluent-uri/full'"),
    ("browser-full", "String(it.Uri.build({ scheme: 'x', host: 'a', port: 1 }))", "x://a:1"),
    ("browser-full", "it.Iri.parse('http://b\\u00fccher.example/').asciiHost",
     "xn--bcher-kva.example"),
    ("browser-full", "it.batch.normalize(['HTTP://A', 'a b'])", ["http://a", None]),
    ("browser-uri-js", "it.resolve('http://a/b/c', '../d')", "http://a/d"),
]


class Quiet(http.server.SimpleHTTPRequestHandler):
    extensions_map = {".mjs": "text/javascript", ".wasm": "application/wasm"}

    def log_message(self, *_):
        pass


def main():
    handler = functools.partial(Quiet, directory=sys.argv[1])
    server = http.server.ThreadingHTTPServer(("127.0.0.1", 0), handler)
    threading.Thread(target=server.serve_forever, daemon=True).start()
    options = Options()
    options.binary_location = shutil.which("chromium")
    for it in ["--headless=new", "--no-sandbox", "--disable-gpu"]:
        options.add_argument(it)
    browser = webdriver.Chrome(service=Service(shutil.which("chromedriver")), options=options)
    browser.set_script_timeout(60)
    browser.get(f"http://127.0.0.1:{server.server_port}/package.json")
    failed = 0
    for name, made, wanted in CASES:
        got = browser.execute_async_script(f"""
          const done = arguments[0];
          const thrown = (make) => {{ try {{ make(); }} catch (why) {{ return why.message; }} }};
          import('/src/{name}.mjs').then((it) => {made}).then(done, (why) => done(String(why)));
        """)
        if got != wanted:
            failed += 1
            print(f"unbundled: FAIL {name}: {made} is {got!r}, not {wanted!r}")
    browser.quit()
    print(f"unbundled: {'FAILED' if failed else 'passed'}: {len(CASES)} calls")
    return 1 if failed else 0


sys.exit(main())
