#!/usr/bin/env python3
"""Types into the page in Chromium, looks at what it shows, and takes its pictures.

usage: page.py PAGE.html [FOLDER]     (pictures go to FOLDER; status 77: no chromium)
"""
import pathlib
import shutil
import sys
import time

PAGE = pathlib.Path(sys.argv[1]).resolve().as_uri()
SIZES = {"wide": (1280, 1100), "phone": (360, 780)}


def missing():
    for it in ["chromium", "chromedriver"]:
        if not shutil.which(it):
            return f"no {it}"
    try:
        import selenium  # noqa: F401
    except ImportError:
        return "no python3-selenium"
    return None


if why := missing():
    print(f"page: skipped: {why}")
    sys.exit(77)

from selenium import webdriver
from selenium.webdriver.chrome.options import Options
from selenium.webdriver.chrome.service import Service
from selenium.webdriver.common.by import By
from selenium.webdriver.common.keys import Keys

FAILED = []


def check(what, held):
    if not held:
        FAILED.append(what)
        print(f"page: FAIL {what}")


class Page:
    """The page in a window of a size, light or dark."""

    def __init__(self, size, scheme, fragment=""):
        self.size, self.scheme = size, scheme
        options = Options()
        options.binary_location = shutil.which("chromium")
        for it in ["--headless=new", "--no-sandbox", "--disable-gpu", "--hide-scrollbars"]:
            options.add_argument(it)
        options.set_capability("goog:loggingPrefs", {"browser": "ALL"})
        driver = Service(shutil.which("chromedriver"))
        self.browser = webdriver.Chrome(service=driver, options=options)
        self.resize(SIZES[size][1])
        self.browser.execute_cdp_cmd("Emulation.setEmulatedMedia", {
            "features": [{"name": "prefers-color-scheme", "value": scheme}]})
        self.open(fragment)

    def open(self, fragment):
        self.browser.get("about:blank")
        self.browser.get(PAGE + fragment)
        for _ in range(200):
            if self.run("return document.documentElement.dataset.ready"):
                return
            time.sleep(0.05)
        sys.exit(f"page: not ready: {self.browser.get_log('browser')}")

    def run(self, script, *given):
        return self.browser.execute_script(script, *given)

    def field(self, name):
        return self.browser.find_element(By.ID, name)

    def type(self, name, text):
        field = self.field(name)
        field.send_keys(Keys.CONTROL, "a")
        field.send_keys(Keys.DELETE)
        field.send_keys(text)

    def put(self, name, text):
        """What no key types: as a paste does."""
        self.run("const it = document.getElementById(arguments[0]); it.value = arguments[1];"
                 "it.dispatchEvent(new Event('input', { bubbles: true }));", name, text)

    def says(self, name):
        return self.field(name).text

    def overflows(self):
        return self.run("""
          const right = (it) => it.getBoundingClientRect().right;
          return document.documentElement.scrollWidth > innerWidth
            || [...document.querySelectorAll('section')].some((section) =>
              [...section.querySelectorAll('*')].some((it) => right(it) > right(section) + 1));
        """)

    def again(self):
        self.browser.quit()
        return Page(self.size, self.scheme)

    def resize(self, height):
        self.browser.execute_cdp_cmd("Emulation.setDeviceMetricsOverride", {
            "width": SIZES[self.size][0], "height": height, "deviceScaleFactor": 1,
            "mobile": self.size == "phone"})

    def picture(self, path):
        """Takes a picture of the whole page."""
        self.resize(100)
        self.resize(self.run("return document.documentElement.scrollHeight"))
        self.browser.save_screenshot(str(path))


# What is typed, and what must be seen of it: a part of the text of an element.
LINKS = [
    ("http://b\u00fccher.example/stra\u00dfe?gr\u00f6\u00dfe=1", {
        "verdict": "This is an IRI.", "components": "in DNS xn--bcher-kva.example",
        "normal": "http://b%C3%BCcher.example/stra%C3%9Fe?gr%C3%B6%C3%9Fe=1"}),
    ("http://exa mple.com/", {
        "verdict": "Unexpected character at index 10: a space (U+0020).",
        "mended": "nothing can be encoded"}),
    ("http://example.com/a b|c?x=50%", {
        "verdict": "Unexpected character at index 20: a space (U+0020).",
        "mended": "http://example.com/a%20b%7Cc?x=50%25"}),
    ("http://[2001:db8::7::1]/", {"verdict": "Invalid IPv6 address at index 8."}),
    ("http://[::1", {"verdict": "the text ends too early"}),
    ("http://a/%zz", {"verdict": "Invalid percent-encoded octet at index 9."}),
    ("../img/\u00fc.png", {"verdict": "This is an IRI reference.",
                          "target": "http://user@Example.com:80/docs/img/\u00fc.png"}),
    ("HTTP://USER@example.com:80/%7e/./a", {
        "normal": "http://USER@example.com/~/a", "order": "first differ in the userinfo"}),
    ("http://[2001:DB8::7]:8080/", {
        "components": "octets 32 1 13 184 0 0 0 0 0 0 0 0 0 0 0 7",
        "normal": "http://[2001:db8::7]:8080/"}),
    ("x:?a=b%20c&d", {"components": "b c"}),
    ("http://a/<img src=x onerror=alert(1)>", {"verdict": "(U+003C)"}),
    ("", {"verdict": "The empty text is a reference to the same page."}),
]


def try_links(page):
    for link, wanted in LINKS:
        page.type("link", link)
        for name, text in wanted.items():
            said = page.says(name)
            check(f"{link!r}: {name} is {said!r}, without {text!r}", text in said)
        check(f"{link!r}: it overflows", not page.overflows())


def try_marks(page):
    page.put("link", "http://a/\U0001f600 b")
    check("the mark", page.run("return document.querySelector('.wrong').textContent") == " ")
    check("index past a pair", "index 11" in page.says("verdict"))
    page.put("link", "http://a/" + "x" * 5000 + "/./%7e")
    check("a long link", page.says("normal").endswith("~") or "~" in page.says("normal"))
    page.run("document.getElementById('link').value = 'http://a/\\ud800';"
             "document.getElementById('link').dispatchEvent(new Event('input'))")
    check("half of a pair", "half of a character (U+D800)" in page.says("verdict"))


def try_keys(page):
    """All of the page by the keyboard alone."""
    page.type("link", "http://example.com/a b")
    field = page.field("link")
    field.send_keys(Keys.ENTER)
    check("Enter adds no line", page.run("return arguments[0].value", field).count("\n") == 0)
    field.send_keys(Keys.TAB)
    page.browser.switch_to.active_element.send_keys(Keys.ENTER)
    taken = page.run("return arguments[0].value", field)
    check(f"the mended link is taken: {taken}", taken.endswith("a%20b"))
    check("the link has the focus", page.browser.switch_to.active_element == field)
    seen = []
    for _ in range(20):
        page.browser.switch_to.active_element.send_keys(Keys.TAB)
        seen.append(page.run(
            "return document.activeElement.id || document.activeElement.textContent"))
    for name in ["rules", "other", "base", "share", "IRI"]:
        check(f"Tab comes to {name}", name in seen)


def try_state(page):
    page.type("link", "http://a")
    page.type("other", "http://a/")
    check("not equivalent", page.says("order").startswith("No"))
    page.field("rules").send_keys(Keys.SPACE)
    check("equivalent by the rules", page.says("order").startswith("Yes"))
    time.sleep(0.5)
    fragment = page.run("return location.hash")
    page.open(fragment)
    check("the address has the state", page.says("order").startswith("Yes")
          and page.run("return document.getElementById('link').value") == "http://a")


def try_labels(page):
    unnamed = page.run("""return [...document.querySelectorAll('input, textarea, button')]
      .filter((it) => !(it.labels?.length || it.textContent)).map((it) => it.id)""")
    check(f"without a label: {unnamed}", unnamed == [])
    live = page.run("return [...document.querySelectorAll('[aria-live]')].map((it) => it.id)")
    check(f"live: {live}", live == ["verdict", "order", "target"])
    page.type("link", "a b")
    check("aria-invalid", page.field("link").get_attribute("aria-invalid") == "true")


def contrast(page):
    """The least contrast of a text with what is behind it (WCAG 2.1, 1.4.3)."""
    return page.run("""
      const light = ([r, g, b]) => [r, g, b].map((it) => it / 255)
        .map((it) => (it <= 0.03928 ? it / 12.92 : ((it + 0.055) / 1.055) ** 2.4))
        .reduce((sum, it, i) => sum + it * [0.2126, 0.7152, 0.0722][i], 0);
      const numbers = (colour) => colour.match(/[\\d.]+/g).map(Number);
      const behind = (it) => {
        for (; it; it = it.parentElement) {
          const [r, g, b, a = 1] = numbers(getComputedStyle(it).backgroundColor);
          if (a > 0) return [r, g, b];
        }
        return [255, 255, 255];
      };
      const found = [];
      for (const it of document.querySelectorAll('main *, header *, footer *')) {
        const hasText = [...it.childNodes].some((n) => n.nodeType === 3 && n.data.trim());
        if (!hasText || it.tagName === 'TEXTAREA' || !it.offsetParent) continue;
        const [a, b] = [numbers(getComputedStyle(it).color), behind(it)].map(light);
        found.push([(Math.max(a, b) + 0.05) / (Math.min(a, b) + 0.05), it.className || it.tagName]);
      }
      return found.sort((a, b) => a[0] - b[0])[0];
    """)


def main():
    folder = pathlib.Path(sys.argv[2]) if len(sys.argv) > 2 else None
    if folder:
        folder.mkdir(parents=True, exist_ok=True)
    for size in SIZES:
        for scheme in ["light", "dark"]:
            page = Page(size, scheme)
            check(f"{size}, {scheme}: it overflows", not page.overflows())
            least, where = contrast(page)
            check(f"{size}, {scheme}: contrast {least:.1f} of {where}", least >= 4.5)
            if folder:
                page.picture(folder / f"page-{size}-{scheme}.png")
                page.type("link", "http://example.com/a b|c?x=50%")
                page.picture(folder / f"page-{size}-{scheme}-mended.png")
                page = page.again()
            for attempt in [try_links, try_marks, try_keys, try_state, try_labels]:
                attempt(page)
            log = page.browser.get_log("browser")
            check(f"{size}, {scheme}: the console has {log}", log == [])
            page.browser.quit()
    print(f"page: {'FAILED' if FAILED else 'passed'}: 4 windows, {len(LINKS)} links in each")


main()
sys.exit(1 if FAILED else 0)
