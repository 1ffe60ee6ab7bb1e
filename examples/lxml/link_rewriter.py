"""Rewrites the links of a tree of lxml: mended, and absolute or relative.

    tree = lxml.html.parse("page.html")
    rejected = make_links_absolute(tree, "http://example.com/a/page.html")
    rejected = make_links_relative(tree, "http://example.com/a/page.html")

A link that cannot be mended, or has no target, stays as it is, and is in the list that is returned.
"""

import re
from collections import defaultdict
from typing import Any, NamedTuple, Optional

from fluent_uri import Iri, Reference, batch
from lxml import etree
from lxml.html import XHTML_NAMESPACE
from lxml.html.defs import link_attrs

XHTML = f"{{{XHTML_NAMESPACE}}}"
XLINK = "{http://www.w3.org/1999/xlink}href"
# `usemap` is a name of the page.
ONE_LINK = (link_attrs | {"poster", "xlink:href", XLINK}) - {"archive", "profile", "usemap"}
# What an `object` has relative to its `codebase`.
UNDER_CODEBASE = ("archive", "classid", "data")
# White space of HTML and of style sheets.
SPACE = " \t\n\f\r"
WORDS = re.compile(f"[^{SPACE}]+")
# A candidate: its URL, and what describes it up to a comma that is not in parentheses.
CANDIDATE = re.compile(rf"[{SPACE},]*([^{SPACE},][^{SPACE}]*)((?:[^,(]|\([^)]*\)?)*)")
REFRESH = re.compile(rf"[{SPACE}]*[\d.]+(?:[{SPACE}]*[;,]|[{SPACE}])[{SPACE}]*", re.A)
REFRESH_NAME = re.compile(f"url[{SPACE}]*=[{SPACE}]*", re.I | re.A)
# What a style sheet has that begins like a link, holds one, or comes before one. None of these
# tries another way where it fails, so each style sheet is read once.
CSS_STRING = r""""(?:[^"\\\n]|\\.)*["\n]?|'(?:[^'\\\n]|\\.)*['\n]?"""
CSS_TOKEN = re.compile(
    rf"/\*.*?(?:\*/|\Z)|\\.|{CSS_STRING}|(?<![-\w])url\([{SPACE}]*|@import", re.I | re.S
)
CSS_WORD = re.compile(
    rf"""{CSS_STRING}|(?:[^{SPACE}"'()\\]|\\[0-9a-f]{{1,6}}[{SPACE}]?|\\[^\n])+""", re.I | re.S
)
CSS_END = re.compile(rf"[{SPACE}]*\)")
CSS_REMNANTS = re.compile(r"(?:[^)\\]|\\.)*", re.S)
CSS_ESCAPE = re.compile(rf"\\(?:([0-9a-f]{{1,6}})[{SPACE}]?|(\r\n|[\n\r\f])|(.))", re.I | re.S)


class Rejected(NamedTuple):
    """A link that stays as it is: `attribute` is None where it is in the text of a `style`."""

    element: Any
    attribute: Optional[str]
    link: str
    error: ValueError


class _Link(NamedTuple):
    element: Any
    attribute: Optional[str]
    start: int
    end: int
    text: str
    codebase: Optional[str]
    written: Any


def make_links_absolute(tree, base_url):
    """Makes each link of a tree the URI or IRI of its target. Returns a list of `Rejected`.

    `base_url` is the address of the page. The first `href` of a `base` is the base of the links,
    and each is dropped. Raises `ParseError` if the address is not an IRI. Then nothing changes.
    """
    return _rewrite(tree, base_url, lambda base, targets: targets)


def make_links_relative(tree, base_url, prefer_relative_path=True):
    """Makes each link of a tree a short reference from the page to its target. Returns a list of
    `Rejected`. Without `prefer_relative_path` it may have a path from the root, where that is
    shorter."""

    def relative(base, targets):
        return batch.relativize(base, targets, prefer_relative_path=prefer_relative_path)

    return _rewrite(tree, base_url, relative)


def _rewrite(tree, base_url, written_from):
    page = base_url if isinstance(base_url, Reference) else Iri.parse(base_url)
    rejected, edits = [], []
    elements = list(tree.iter(etree.Element))
    base, bases = _base_of(elements, page, rejected)
    by_codebase = defaultdict(list)
    for it in _links(elements):
        by_codebase[it.codebase].append(it)
    for codebase, links in by_codebase.items():
        under, leads_from = base, page
        if codebase is not None:
            try:
                under = leads_from = base.join_link(codebase, keep_fragment=False)
            except ValueError as error:
                rejected += [Rejected(it.element, it.attribute, it.text, error) for it in links]
                continue
        targets = batch.join_links(under, [it.text for it in links])
        found = [at for at, it in enumerate(targets) if it is not None]
        made = dict(zip(found, written_from(leads_from, [targets[at] for at in found])))
        for at, it in enumerate(links):
            if made.get(at) is None:
                error = _error(under, it.text)
                rejected.append(Rejected(it.element, it.attribute, it.text, error))
            else:
                edits.append((it, it.written(made[at], targets[at])))
    _put(edits)
    for it in bases:
        del it.attrib["href"]
    return rejected


def _base_of(elements, page, rejected):
    """The base of the links, and each `base` whose `href` is to be dropped. The base is the first
    such `href`. If that cannot be one, it stays, and the page is the base, as in HTML."""
    bases = [it for it in elements if _name(it) == "base" and "href" in it.attrib]
    if bases:
        link = bases[0].get("href")
        try:
            base = page.join_link(link, keep_fragment=False)
            # (no relative link has a target against what has no hierarchy)
            base.resolve("x")
            return base, bases
        except ValueError as error:
            rejected.append(Rejected(bases[0], "href", link, error))
    return page, []


def _error(base, link):
    try:
        base.join_link(link)
    except ValueError as error:
        return error
    return ValueError("the link has no target")


def _name(element):
    """The name of an element of HTML."""
    name = element.tag
    return name[len(XHTML) :] if name.startswith(XHTML) else name


def _links(elements):
    """Each link but those of `base`."""
    for it in elements:
        name = _name(it)
        if name == "base":
            continue
        for attribute, text in it.attrib.items():
            codebase = None
            if name == "object" and attribute in UNDER_CODEBASE:
                codebase = it.get("codebase")
            for start, end, link, written in _of_attribute(it, name, attribute, text):
                yield _Link(it, attribute, start, end, link, codebase, written)
        if name == "style" and it.text:
            for start, end, link, written in _of_css(it.text):
                yield _Link(it, None, start, end, link, None, written)


def _of_attribute(element, name, attribute, text):
    """Where the links of an attribute are, each of them, and what writes another in its place."""
    if attribute in ONE_LINK:
        yield 0, len(text), text, _as_it_is
    elif attribute in ("ping", "profile") or (attribute == "archive" and name == "object"):
        yield from ((*it.span(), it.group(), _in_list) for it in WORDS.finditer(text))
    elif attribute in ("srcset", "imagesrcset"):
        yield from _of_candidates(text)
    elif attribute == "style":
        yield from _of_css(text)
    elif name == "meta" and attribute == "content":
        yield from _of_refresh(element, text)
    elif name == "param" and attribute == "value":
        if element.get("valuetype", "").lower() == "ref":
            yield 0, len(text), text, _as_it_is


def _of_candidates(text):
    """The links of images with their sizes (HTML, section 4.8.4.2)."""
    at = 0
    while match := CANDIDATE.match(text, at):
        start, end = match.span(1)
        link = match.group(1).rstrip(",")
        at = end if len(link) < end - start else match.end()
        yield start, start + len(link), link, _in_sizes


def _of_refresh(element, text):
    """The link of a refresh (HTML, section 4.2.5.3), with its quotes."""
    if element.get("http-equiv", "").lower() != "refresh":
        return
    before = REFRESH.match(text)
    if before:
        before = REFRESH_NAME.match(text, before.end()) or before
        start, link = before.end(), text[before.end() :].rstrip(SPACE)
        end = start + len(link)
        if link[:1] in ('"', "'"):
            link = link[1:].partition(link[0])[0]
        if link:
            yield start, end, link, _in_refresh


def _of_css(text):
    """The links of a style sheet (CSS Syntax, section 4), with their quotes: in `url()`, and what
    is after `@import`. None is in a comment or in another string."""
    at, is_import = 0, False
    while token := CSS_TOKEN.search(text, at):
        is_import = is_import and not text[at : token.start()].strip(SPACE)
        at, kind = token.end(), token.group()[0]
        found = None
        if kind in "uU":
            found = CSS_WORD.match(text, at)
            at = found.end() if found else at
            if not (found and CSS_END.match(text, at)):
                found = None
                at = CSS_REMNANTS.match(text, at).end()
        elif kind in "\"'" and is_import:
            found = token
        link = found.group() if found else ""
        if link[:1] in ('"', "'"):
            link = link[1:-1] if len(link) > 1 and link[0] == link[-1] else ""
        if link:
            yield (*found.span(), CSS_ESCAPE.sub(_unescaped, link), _in_css)
        is_import = kind == "@" or (is_import and kind == "/")


def _unescaped(match):
    digits, newline, other = match.groups()
    if not digits:
        return other or ""
    number = int(digits, 16)
    is_scalar = 0 < number < 0xD800 or 0xDFFF < number < 0x110000
    return chr(number) if is_scalar else "\ufffd"


# What is written in place of a link: a reference, or the target where an empty reference is not a
# link.


def _as_it_is(reference, target):
    return reference


def _in_list(reference, target):
    return reference or target


def _in_sizes(reference, target):
    """A comma at the start would be one before the candidate."""
    return f"./{reference}" if reference[:1] == "," else reference or target


def _in_refresh(reference, target):
    """A mark at the start, or `url=`, would be one before the link."""
    is_taken = reference[:1] in ("'", ";", ",") or REFRESH_NAME.match(reference)
    return f"./{reference}" if is_taken else reference or target


def _in_css(reference, target):
    return f'"{reference or target}"'


def _put(edits):
    """Writes what is new, each text once."""
    texts = defaultdict(list)
    for link, new in edits:
        texts[link.element, link.attribute].append((link.start, link.end, new))
    for (element, attribute), made in texts.items():
        whole = element.text if attribute is None else element.get(attribute)
        pieces, at = [], 0
        for start, end, new in sorted(made):
            pieces += whole[at:start], new
            at = end
        pieces.append(whole[at:])
        if attribute is None:
            element.text = "".join(pieces)
        else:
            element.set(attribute, "".join(pieces))
