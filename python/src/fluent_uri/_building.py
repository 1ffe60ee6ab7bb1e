"""What is built of components: they are handed to the shared library as spans of one text."""

from __future__ import annotations

import enum
import ipaddress
import struct
from typing import Any, Callable, Dict, List, Optional, Type, TypeVar, Union

from fluent_uri import _calls, _native
from fluent_uri._declarations import COMPONENTS, Components
from fluent_uri._errors import BuildError, exact, number_error, utf8_of

Address = Union[ipaddress.IPv4Address, ipaddress.IPv6Address]
# What converts a host: the shared library if it is True, or a function.
AsciiHost = Union[bool, Callable[[str], str], None]
_Value = TypeVar("_Value", bound="Buildable")

# The components in the order of `fluent_uri_components`, and what is written of one that is absent.
ORDER = ("scheme", "userinfo", "host", "port", "path", "query", "fragment")
_SPANS = struct.Struct("=14Q")
_ABSENT = (2**64 - 1, 2**64 - 1)
_NAMES = {COMPONENTS[it.upper()]: it for it in ORDER}
assert tuple(it for it, _ in Components._fields_) == ORDER


class Kept(enum.Enum):
    """What `replace` is given for a component that it keeps."""

    KEPT = 0

    def __repr__(self) -> str:
        return "KEPT"


KEPT = Kept.KEPT


def _host_text(host: Any) -> Optional[str]:
    """The text of a host, which may be given as an address."""
    if isinstance(host, ipaddress.IPv4Address):
        return str(host)
    if isinstance(host, ipaddress.IPv6Address):
        return f"[{host}]"
    return None if host is None else exact(host)


def _port_text(port: Any) -> Optional[str]:
    """The text of a port, which may be given as a number."""
    if type(port) is int:
        if not 0 <= port <= 65535:
            raise ValueError(f"a port is from 0 to 65535, not {port}")
        return str(port)
    return None if port is None else exact(port)


def built(kind: int, given: Dict[str, Any]) -> str:
    """The text of the kind that has the components that are given, None for one that is absent.
    Raises `BuildError` where there is none."""
    texts: Dict[str, Optional[str]] = {
        name: None if it is None else exact(it)
        for name, it in given.items()
        if name not in ("host", "port")
    }
    texts["host"] = _host_text(given["host"])
    texts["port"] = _port_text(given["port"])
    data = b""
    spans: List[int] = []
    for name in ORDER:
        text = texts[name]
        start = len(data)
        if text is None:
            spans += _ABSENT
        else:
            data += utf8_of(text)
            spans += start, len(data)
    made, error, which, index = _native.built(kind, data, _SPANS.pack(*spans))
    if not error:
        return made.decode()
    at = 2 * ORDER.index(_NAMES[which]) if which in _NAMES else 0
    part = b"" if spans[at] == _ABSENT[0] else data[spans[at] : spans[at + 1]]
    if error in BuildError.KINDS:
        before = part[:index].decode("utf-8", "surrogatepass")
        raise BuildError(error, _NAMES[which], index, len(before))
    raise number_error(error, index)


def _kind_of(cls: Any) -> int:
    """The number of a class's kind."""
    return _calls.kind_of(cls)


def _made(cls: Type[_Value], text: str) -> _Value:
    """The value of a class of a kind, also of a subclass."""
    any_class: Any = cls
    made: _Value = any_class.parse(text)
    return made


class Buildable:
    """The calls of the base of the kinds that build values."""

    __slots__ = ()

    @classmethod
    def build(
        cls: Type[_Value],
        *,
        scheme: Optional[str] = None,
        userinfo: Optional[str] = None,
        host: Union[str, Address, None] = None,
        port: Union[str, int, None] = None,
        path: Optional[str] = None,
        query: Optional[str] = None,
        fragment: Optional[str] = None,
    ) -> _Value:
        """Returns the value that has these components, and no others (RFC 3986, section 5.3).

        >>> from fluent_uri import Uri
        >>> Uri.build(scheme="http", host="example.com", port=8080, path="/a/b", query="c=d")
        Uri('http://example.com:8080/a/b?c=d')

        They are given without their delimiters, and None for one that is absent. A host may be an
        address of `ipaddress`, and a port a number. Raises `BuildError`, which names the component,
        where one of them has a character that it may not have, as a `?` in a path, or where they
        are together not those of a text of the kind.
        """
        kind = _kind_of(cls)
        return _made(cls, built(kind, {
            "scheme": scheme, "userinfo": userinfo, "host": host, "port": port, "path": path,
            "query": query, "fragment": fragment,
        }))

    def replace(
        self: _Value,
        *,
        scheme: Union[str, None, Kept] = KEPT,
        userinfo: Union[str, None, Kept] = KEPT,
        host: Union[str, Address, None, Kept] = KEPT,
        port: Union[str, int, None, Kept] = KEPT,
        path: Union[str, None, Kept] = KEPT,
        query: Union[str, None, Kept] = KEPT,
        fragment: Union[str, None, Kept] = KEPT,
    ) -> _Value:
        """Returns the same with these components in place of its own, or without one that is None.

        >>> from fluent_uri import Uri
        >>> Uri.parse("http://a/b?c#d").replace(path="/x", query=None)
        Uri('http://a/x#d')

        Raises `BuildError` as `build` does, also where a host is removed and a port is not.
        """
        given: Dict[str, Any] = {
            "scheme": scheme, "userinfo": userinfo, "host": host, "port": port, "path": path,
            "query": query, "fragment": fragment,
        }
        kind = _kind_of(type(self))
        for name, it in given.items():
            if it is KEPT:
                given[name] = getattr(_calls.BASES[kind], name).__get__(self)
        return _made(type(self), built(kind, given))


def with_ascii_host(iri: _Value, ascii_host: AsciiHost) -> _Value:
    """An IRI or a reference with the host that the function makes of its own, unless that is
    ASCII; or the same if there is no function."""
    if ascii_host is None or ascii_host is False:
        return iri
    if isinstance(ascii_host, bool) or not callable(ascii_host):
        raise TypeError(f"ascii_host is a function or a bool, not {type(ascii_host)!r}")
    host: Optional[str] = _calls.BASES[_kind_of(type(iri))].host.__get__(iri)
    if host is None or host.isascii():
        return iri
    made = exact(ascii_host(host))
    if not made.isascii():
        raise ValueError(f"ascii_host returned what is not ASCII: {made!r}")
    return iri.replace(host=made)
