"""A site on loopback whose links are written in many ways. The server is the proxy of the crawl, so
any host is reached through it. It knows of each text which page it is of, as it wrote them."""

import html
import http.server
import random
import threading
from collections import Counter

HOST = "site.example"

# Ways to write a URL of a path that begins with `/`, all equivalent (RFC 3986, sections 6.2.2 and
# 6.2.3).
SPELLINGS = (
    lambda path: f"http://{HOST}{path}",
    lambda path: f"HTTP://{HOST.upper()}{path}",
    lambda path: f"http://{HOST}:80{path}",
    lambda path: f"http://{HOST}/x/..{path}",
    lambda path: f"http://{HOST}/.{path}",
    lambda path: f"http://{HOST}{path.replace('~', '%7E')}",
    lambda path: f"http://{HOST}{path.replace('~', '%7e')}",
    lambda path: f"http://{HOST}{path}#top",
)

# Two URLs each that are not equivalent. A server may have a page for each.
PAIRS = (
    ("/order{}?a=1&b=2", "/order{}?b=2&a=1"),
    ("/plus{}?a+b", "/plus{}?a%20b"),
    ("/empty{}?a", "/empty{}?a="),
    ("/segment{};b", "/segment{}%3Bb"),
    ("/sum{}+1", "/sum{}%2B1"),
)


class Site:
    """Pages, and the texts of links to each."""

    def __init__(self, plain, pairs, seed=1):
        paths = [f"/~{at}" for at in range(plain)]
        for at in range(pairs):
            paths += [it.format(at) for it in PAIRS[at % len(PAIRS)]]
        dice = random.Random(seed)
        self.count = len(paths)
        self.texts = {}
        links = []
        for page, path in enumerate(paths):
            for spelling in SPELLINGS:
                text = spelling(path)
                links.append(text)
                self.texts[self._key(text)] = page
        dice.shuffle(links)
        # The first page, which is asked for at `/`, has links of every page.
        self.links = [dice.sample(links, 8) for _ in paths]
        self.start = f"http://{HOST}/"
        self.first = links
        self.asked = Counter()

    @staticmethod
    def _key(text):
        """What a client asks of a proxy for a link: without the fragment."""
        return text.partition("#")[0].replace(HOST.upper(), HOST).replace("HTTP:", "http:")

    def page(self, text):
        """Returns the page of a URL, or None where there is none."""
        if text == self.start:
            return self._html(self.first)
        number = self.texts.get(self._key(text))
        if number is None:
            return None
        self.asked[number] += 1
        return self._html(self.links[number])

    @staticmethod
    def _html(links):
        made = "".join(f'<p><a href="{html.escape(it)}">a page</a>' for it in links)
        return f"<!DOCTYPE html><title>A page</title>{made}".encode()


def serve(site):
    """Starts a server for the site on a port of its own, and returns it."""

    class Handler(http.server.BaseHTTPRequestHandler):
        def do_GET(self):
            data = site.page(self.path)
            self.send_response(404 if data is None else 200)
            self.send_header("Content-Type", "text/html; charset=utf-8")
            self.send_header("Content-Length", str(len(data or b"")))
            self.end_headers()
            self.wfile.write(data or b"")

        def log_message(self, *words):
            pass

    server = http.server.ThreadingHTTPServer(("127.0.0.1", 0), Handler)
    threading.Thread(target=server.serve_forever, daemon=True).start()
    return server
