"""Runs `urilines` (URILINES) on lines whose output Python knows, on lines of 10 MB, and on pipes.

A line of JSON, read by Python's `json`, has what Python finds in the text: each component that is
present, in order, and each pair of the query, decoded by `urllib.parse`.
"""
import ipaddress
import json
import os
import random
import re
import subprocess
import sys
import urllib.parse

LINES, LENGTH = 1000, 10_000_000
draw = random.Random(8259)
# RFC 3986, appendix B; an authority by section 3.2
REFERENCE = re.compile(
    r"(?:([^:/?#]+):)?(?://([^/?#]*))?([^?#]*)(?:\?([^#]*))?(?:#(.*))?", re.S
)
AUTHORITY = re.compile(r"(?:([^@]*)@)?(\[[^]]*\]|[^:]*)(?::(.*))?", re.S)
HOSTS = ["", "h", "a.b-c", "%22%5C", "é", "例え", "1.2.3.4", "1.2.3.04", "256.1.1.1", "1.2.3",
         "[::1]", "[1:2::3.4.5.6]", "[v1.a:b]"]
CHARACTERS = [*"aB0-~!'(*+,;=&:@é名", "\u00a0", "\U0001f600"]
OCTETS = "00 08 09 0a 0D 1F 20 22 2f 5C 7f 80 C3%A9 c3 E2%82 E2%80%A8 F0%9F%98%80 ED%A0%80"
OCTETS = [f"%{it}" for it in (OCTETS + " F4%90%80%80 C0%AF FF EF%BB%BF").split(" ")]


def run(words, given):
    """The lines that the program writes, and its status."""
    ran = subprocess.run([os.environ["URILINES"], *words], input=given, stdout=subprocess.PIPE)
    return ran.stdout.decode().split("\n"), ran.returncode


def text(more=""):
    parts = ([*CHARACTERS, *more, draw.choice(OCTETS)] for _ in range(draw.randrange(9)))
    return "".join(draw.choice(it) for it in parts)


def maybe(before, part, after=""):
    return before + part + after if draw.randrange(3) else ""


def reference():
    host = maybe("", text().replace("@", ""), "@") + draw.choice(HOSTS)
    authority = maybe("//", host + maybe(":", draw.choice(["", "0", "8080"])))
    path = "/" + text("/").lstrip("/") if draw.randrange(2) else ""
    query = draw.choice(["", "&", "&&"]) + "&".join(
        text("/?").replace("&", "") + draw.choice(["", "=", "=" + text()])
        for _ in range(draw.randrange(5))
    )
    scheme = maybe("", draw.choice(["a", "http", "x+y-1."]), ":")
    return scheme + authority + path + maybe("?", query) + maybe("#", text("/?"))


def kind_of_host(host):
    if host.startswith("["):
        return "ipvfuture" if host[1] in "vV" else "ipv6"
    try:
        ipaddress.IPv4Address(host)
        return "ipv4"
    except ValueError:
        return "reg-name"


def components(line):
    scheme, authority, path, query, fragment = REFERENCE.fullmatch(line).groups()
    found = {"scheme": scheme, "authority": authority}
    if authority is not None:
        userinfo, host, port = AUTHORITY.fullmatch(authority).groups()
        kind = kind_of_host(host)
        found |= {"userinfo": userinfo, "host": host, "host_kind": kind, "port": port}
    found |= {"path": path, "query": query, "fragment": fragment}
    return [(name, part) for name, part in found.items() if part is not None]


def decoded(part):
    return urllib.parse.unquote_to_bytes(part).decode(errors="replace")


def pairs(line):
    query = REFERENCE.fullmatch(line)[4] or ""
    pieces = (it.partition("=") for it in query.split("&") if it)
    return [[decoded(name), decoded(value)] for name, _, value in pieces]


def value(output):
    try:
        return json.loads(output, object_pairs_hook=list)
    except ValueError as error:
        return error


def wrong_json():
    """Lines of JSON that have not what Python finds in the texts."""
    lines = [reference() for _ in range(LINES)]
    given = "".join(it + "\n" for it in lines).encode()
    for command, expected in ("parse", components), ("query", pairs):
        outputs, _ = run([command, "iri-ref"], given)
        for line, output in zip(lines, outputs[:-1], strict=True):
            if value(output) != expected(line):
                yield f"{command}: {line!r}: {output!r}, not {expected(line)!r}"


def wrong_of_pipes():
    """Runs that don't name the mode of their input, or fail for an error output that is closed."""
    end, given = os.pipe()
    os.set_blocking(end, False)
    os.write(given, b"X:\ny:")
    words = [os.environ["URILINES"], "--errors=stderr", "normalize", "uri"]
    ran = subprocess.run(words, stdin=end, capture_output=True)
    if (ran.returncode, ran.stdout) != (3, b"x:\n") or b"non-blocking" not in ran.stderr:
        yield f"non-blocking input: {ran}"
    os.close(end)
    ran = subprocess.run(words, input=b"a b\nX:\n", stdout=subprocess.PIPE, stderr=given)
    if (ran.returncode, ran.stdout) != (1, b"x:\n"):
        yield f"closed error output: {ran}"
    os.close(given)


def repeated(prefix, unit):
    return prefix + unit * (LENGTH // len(unit.encode()))


def rejected(index):
    return f"error: unexpected character at index {index}"


# Words, what the line repeats, and what is written.
LONG = [
    ("parse iri-ref", ("?", "é"), f'{{"path":"","query":"{repeated("", "é")}"}}'),
    ("normalize uri-ref", ("", "%41"), "A" * (LENGTH // 3)),
    ("normalize iri-ref", ("", "%C3%A9"), "é" * (LENGTH // 6)),
    ("normalize uri", ("s:", "/../"), "s:/"),
    ("normalize iri", ("s://h", "/./"), "s://h" + "/" * (LENGTH // 3)),
    ("resolve uri http://h/a", ("", "../"), "http://h/"),
    ("parse uri-ref", ("", "["), rejected(0)),
    ("parse uri", ("s://", ":"), rejected(LENGTH + 3)),
    ("normalize iri", ("", "+"), rejected(LENGTH)),
    ("normalize uri-ref", ("//", "@"), rejected(3)),
]


def wrong_of_long_lines():
    """Lines of 10 MB whose output is another."""
    for words, of, wanted in LONG:
        given = f"{repeated(*of)}\nx:\n".encode()
        got, status = run(["--max-line", str(2 * LENGTH), *words.split()], given)
        if got[0] != wanted or len(got) != 3 or status != wanted.startswith("error"):
            yield f"{words}: 10 MB of {of}: {got[0][:80]!r}, status {status}"


found = [*wrong_json(), *wrong_of_long_lines(), *wrong_of_pipes()]
print(*(f"urilines: {it}" for it in found[:10]), f"urilines: {len(found)} lines wrong", sep="\n")
sys.exit(len(found) > 0)
