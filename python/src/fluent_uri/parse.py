"""Calls with the names and results of `urllib.parse`, for code that moves over.

>>> from fluent_uri.parse import parse_qs, quote, urljoin, urlsplit
>>> urlsplit("HTTP://user@Example.com:80/a?b#c")
SplitResult(scheme='http', netloc='user@Example.com:80', path='/a', query='b', fragment='c')
>>> urljoin("http://a/b/c/d;p?q", "../g")
'http://a/b/g'
>>> parse_qs("x=1&y=%C3%A9+")
{'x': ['1'], 'y': ['é ']}
>>> quote("a b/é")
'a%20b/%C3%A9'

They reject what is not a URI or an IRI reference, or a component of one, which those of
`urllib.parse` let through or change. docs/PYTHON.md lists what differs.
"""

from __future__ import annotations

from typing import Any, Iterable, NamedTuple, Optional, Tuple

from fluent_uri import IriRef
from fluent_uri._errors import exact
from fluent_uri._joining import joined
from fluent_uri._queries import (
    parse_qs,
    parse_qsl,
    quote,
    quote_plus,
    unquote,
    unquote_plus,
    urlencode,
)

__all__ = [
    "DefragResult",
    "ParseResult",
    "SplitResult",
    "parse_qs",
    "parse_qsl",
    "quote",
    "quote_plus",
    "unquote",
    "unquote_plus",
    "urldefrag",
    "urlencode",
    "urljoin",
    "urlparse",
    "urlsplit",
    "urlunparse",
    "urlunsplit",
]

# The schemes of whose last segment `urlparse` takes parameters apart.
_HAS_PARAMETERS = frozenset(
    " ftp hdl http https imap mms prospero rtsp rtsps rtspu sftp shttp sip sips tel".split(" ")
)


class _Netloc:
    """What a result has of its authority."""

    __slots__ = ()

    netloc: str

    @property
    def _authority(self) -> IriRef:
        return IriRef.parse(f"//{self.netloc}")

    @property
    def username(self) -> Optional[str]:
        """The userinfo up to its first `:`, or None."""
        userinfo = self._authority.userinfo
        return None if userinfo is None else userinfo.partition(":")[0]

    @property
    def password(self) -> Optional[str]:
        """What comes after the first `:` of the userinfo, or None."""
        _, mark, password = (self._authority.userinfo or "").partition(":")
        return password if mark else None

    @property
    def hostname(self) -> Optional[str]:
        """The host in small letters, without the brackets of an address, or None if it is empty."""
        host = self._authority.host or ""
        return host.strip("[]").lower() or None

    @property
    def port(self) -> Optional[int]:
        """The number of the port, or None. Raises `ValueError` if it is above 65535."""
        return self._authority.port_number


class _Split(NamedTuple):
    scheme: str
    netloc: str
    path: str
    query: str
    fragment: str


class _Parsed(NamedTuple):
    scheme: str
    netloc: str
    path: str
    params: str
    query: str
    fragment: str


class _Defragged(NamedTuple):
    url: str
    fragment: str


class SplitResult(_Split, _Netloc):
    """The components of a text, where an absent one is the empty text."""

    __slots__ = ()

    def geturl(self) -> str:
        """The text of the components, as `urlunsplit` makes it, whatever they are."""
        return _joined(*self)


class ParseResult(_Parsed, _Netloc):
    """The components of a text, and the parameters of its last segment."""

    __slots__ = ()

    def geturl(self) -> str:
        """The text of the components, as `urlunparse` makes it, whatever they are."""
        scheme, netloc, path, params, query, fragment = self
        return _joined(scheme, netloc, f"{path};{params}" if params else path, query, fragment)


class DefragResult(_Defragged):
    """A text without its fragment, and the fragment."""

    __slots__ = ()

    def geturl(self) -> str:
        """The text with its fragment, unless that is empty."""
        return f"{self.url}#{self.fragment}" if self.fragment else self.url


def urlsplit(url: str, scheme: str = "", allow_fragments: bool = True) -> SplitResult:
    """Returns the components of a URI or an IRI reference, with its scheme in small letters, or
    `scheme` where it has none. Without `allow_fragments` its fragment is part of the path or the
    query. Raises `ParseError` if the text is not one."""
    it = IriRef.parse(url if type(url) is str else exact(url))
    scheme = scheme if type(scheme) is str else exact(scheme)
    path, query, fragment = it.path, it.query or "", it.fragment or ""
    if not allow_fragments and it.fragment is not None:
        # What is after the path; a `?` of the fragment may be the first one.
        path, _, query = str(it)[_start_of_path(it) :].partition("?")
        fragment = ""
    found = it.scheme
    return SplitResult(
        scheme if found is None else found.lower(), it.authority or "", path, query, fragment
    )


def _start_of_path(it: IriRef) -> int:
    scheme = 0 if it.scheme is None else len(it.scheme) + 1
    return scheme + (0 if it.authority is None else 2 + len(it.authority))


def urlparse(url: str, scheme: str = "", allow_fragments: bool = True) -> ParseResult:
    """Returns what `urlsplit` returns, and the parameters of the last segment: what is after its
    first `;`, under a scheme that has some. Raises `ParseError` if the text is not a URI or an IRI
    reference."""
    scheme, netloc, path, query, fragment = urlsplit(url, scheme, allow_fragments)
    params = ""
    if scheme in _HAS_PARAMETERS:
        before, slash, last = path.rpartition("/")
        last, _, params = last.partition(";")
        path = before + slash + last
    return ParseResult(scheme, netloc, path, params, query, fragment)


def urlunsplit(components: Iterable[Optional[str]]) -> str:
    """Returns the text of five components (RFC 3986, section 5.3), without those that are empty or
    None. A path after an authority begins with `/`.

    >>> urlunsplit(("http", "a", "b", None, ""))
    'http://a/b'

    Raises `ParseError` if the text is not an IRI reference, and `ValueError` if a component would
    become another one.
    """
    parts = _texts(components, 5)
    text = _joined(*parts)
    it = IriRef.parse(text)
    found = it.scheme or "", it.authority or "", it.path, it.query or "", it.fragment or ""
    for name, given, made in zip(_Split._fields, parts, found):
        if made not in (given, f"/{given}" if name == "path" and parts[1] else given):
            raise ValueError(f"in {text!r} the {name} {given!r} would be {made!r}")
    return text


def _joined(scheme: str, netloc: str, path: str, query: str, fragment: str) -> str:
    text = f"{scheme}:" if scheme else ""
    if netloc:
        # A path after an authority is empty or begins with `/`.
        text += f"//{netloc}" + "/" * (path[:1] not in ("", "/"))
    elif path.startswith("//") or (scheme == "file" and path.startswith("/")):
        text += "//"
    return text + path + f"?{query}" * (query != "") + f"#{fragment}" * (fragment != "")


def urlunparse(components: Iterable[Optional[str]]) -> str:
    """Returns the text of six components, as `urlunsplit` does: the fourth are the parameters of
    the last segment."""
    scheme, netloc, path, params, query, fragment = _texts(components, 6)
    return urlunsplit((scheme, netloc, f"{path};{params}" if params else path, query, fragment))


def _texts(components: Any, count: int) -> Tuple[str, ...]:
    made = tuple("" if it is None else exact(it) for it in components)
    if len(made) != count:
        raise ValueError(f"there are {count} components, not {len(made)}")
    return made


def urldefrag(url: str) -> DefragResult:
    """Returns a URI or an IRI reference without its fragment, and the fragment, or an empty one.
    Raises `ParseError` if the text is not one."""
    it = IriRef.parse(exact(url))
    return DefragResult(str(it.with_fragment(None)), it.fragment or "")


def urljoin(base: str, url: str) -> str:
    """Returns the target of a reference against a base (RFC 3986, section 5.2), or the reference
    if the base is empty. The fragment of the base plays no part. Of a base without a scheme it
    returns the reference that leads, from anywhere, where the base and then the reference lead.

    >>> urljoin("a/b", "../../c?d")
    '../c?d'

    Raises `ParseError` if a text is not one, and `ResolveError` if there is no target.
    """
    reference = IriRef.parse(exact(url))
    if not exact(base):
        return str(reference)
    return joined(IriRef.parse(base).with_fragment(None), reference)
