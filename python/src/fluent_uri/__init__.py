"""URIs (RFC 3986) and IRIs (RFC 3987): parsed, taken apart, normalised and resolved by a verified
library.

>>> from fluent_uri import Uri
>>> uri = Uri.parse("HTTP://user@Example.com:80/a/./b/%7Efoo?x=1#top")
>>> uri.host, uri.port, uri.path
('Example.com', '80', '/a/./b/%7Efoo')
>>> str(uri.normalize())
'http://user@example.com/a/b/~foo?x=1#top'
>>> Uri.parse("http://a/b/c/d;p?q").resolve("../g")
Uri('http://a/b/g')
>>> Uri.parse("http://a b/")
Traceback (most recent call last):
    ...
fluent_uri.ParseError: unexpected character at index 8

Each call is thread-safe. Values are immutable, hashable and ordered by their text.
"""

from __future__ import annotations

import enum
import sys
from typing import Any, Optional, Type, TypeVar, Union

# What is not supported is no import.
if not getattr(sys, "_is_gil_enabled", lambda: True)():
    raise ImportError("fluent_uri needs Python's global lock: run Python with PYTHON_GIL=1")

from fluent_uri import _calls, _native
from fluent_uri._building import AsciiHost as _AsciiHost
from fluent_uri._building import Buildable as _Buildable
from fluent_uri._building import with_ascii_host as _with_ascii_host
from fluent_uri._calls import is_compiled
from fluent_uri._calls import text_of as _text_of
from fluent_uri._encoding import Component, decode, encode
from fluent_uri._errors import (
    AsciiHostError,
    AsciiHostErrorKind,
    BuildError,
    BuildErrorKind,
    ParseError,
    ParseErrorKind,
    ResolveError,
    ResolveErrorKind,
)
from fluent_uri._errors import exact as _exact
from fluent_uri._hosts import Hosts as _Hosts
from fluent_uri._hosts import WithOrigin as _WithOrigin
from fluent_uri._paths import DotSegmentError, PathsAndQueries

__all__ = [
    "AsciiHostError",
    "AsciiHostErrorKind",
    "BuildError",
    "BuildErrorKind",
    "Component",
    "DotSegmentError",
    "HostKind",
    "Iri",
    "IriRef",
    "ParseError",
    "ParseErrorKind",
    "Reference",
    "ResolveError",
    "ResolveErrorKind",
    "Uri",
    "UriRef",
    "batch",
    "compare",
    "decode",
    "encode",
    "equivalent",
    "is_compiled",
    "normal_version",
    "sort_key",
]
__version__ = "0.1.0"
if not _native.has_version(__version__):
    raise ImportError(f"{_native.path} is not of the version {__version__} of this package")

#: The version of normal forms, which changes where any of them does: keep it beside stored forms.
normal_version: int = _native.function("normal_version")()

_Reference_ = TypeVar("_Reference_", bound="Reference")
_Absolute_ = TypeVar("_Absolute_", bound="_Absolute")


class HostKind(enum.IntEnum):
    """The kinds of host (RFC 3986, section 3.2.2)."""

    REG_NAME = 1
    IPV4 = 2
    IPV6 = 3
    IPV_FUTURE = 4


@_calls.finished
class Reference(_calls.Reference, PathsAndQueries, _Hosts, _Buildable):
    """What the four kinds have in common: the base of each, and of no other class.

    >>> isinstance(Uri.parse("a:b"), Reference)
    True
    """

    __slots__ = ()
    __match_args__ = ("scheme", "authority", "path", "query", "fragment")

    @property
    def host_kind(self) -> Optional[HostKind]:
        """The kind of the host, or None where there is no authority."""
        kind = self._host_kind
        return HostKind(kind) if kind else None

    def with_fragment(self: _Reference_, fragment: Optional[str]) -> _Reference_:
        """Returns the same with this fragment in place of its own, or with none if it is None.

        >>> Uri.parse("http://a/#b").with_fragment("c")
        Uri('http://a/#c')
        >>> Uri.parse("http://a/#b").with_fragment(None)
        Uri('http://a/')

        Raises `ParseError` if a fragment may not hold the text. Its index is one of the whole text.
        """
        text, _, _ = _text_of(self).partition("#")
        if fragment is not None:
            text = f"{text}#{_exact(fragment)}"
        return type(self).parse(text)

    def __bytes__(self) -> bytes:
        return _text_of(self).encode()

    def __format__(self, how: str) -> str:
        return format(str(self), how)

    def __reduce_ex__(self, protocol: Any) -> Any:
        # A subclass may have attributes, and a `__new__` that changes what it is given.
        made = object.__reduce_ex__(self, 2)
        if type(self).__reduce__ is not object.__reduce__:
            return made
        return _copied, (type(self), _text_of(self)), _without_slots(made[2])


def _copied(cls: Type[_Reference_], text: str) -> _Reference_:
    """What `copy` and `pickle` make: the value of the class with the text, whatever the class does
    where it is called."""
    base: Any = _calls.BASES[_calls.kind_of(cls)]
    return base.__new__(cls, text)  # type: ignore[no-any-return]


def _without_slots(state: Any) -> Any:
    """The state of a value without what its base keeps in slots."""
    if isinstance(state, tuple) and len(state) == 2 and isinstance(state[1], dict):
        slots = {name: it for name, it in state[1].items() if name not in _calls.SLOTS}
        return (state[0], slots) if slots else state[0]
    return state


class _Absolute(Reference):
    """What a base has besides."""

    __slots__ = ()

    def resolve(
        self: _Absolute_,
        reference: Union[str, Reference],
        *,
        basic: bool = False,
        normalize: bool = False,
        scheme_rules: bool = False,
        mend: bool = False,
    ) -> _Absolute_:
        """Returns the target of a reference against this as its base (RFC 3986, section 5.2). The
        fragment of a base plays no part (section 5.1).

        >>> Uri.parse("http://a/b/c/d;p?q").resolve("../%7eg", normalize=True)
        Uri('http://a/b/~g')

        With `basic` the target is that of the basic algorithm, as section 5.2 prints it. With
        `normalize` it returns the normal form of the target, which is by the rules of schemes if
        `scheme_rules` is true. With `mend` the reference is mended first. Raises `ParseError` if
        the reference is not one of the kind, `ResolveError` if it has no target, and `TypeError`
        for `basic` with `normalize`.

        >>> Uri.parse("http://a/b").resolve("%2E%2E/g", basic=True)
        Uri('http://a/%2E%2E/g')
        """
        # (the call takes a tenth of the whole)
        if basic or scheme_rules:
            _calls.rules_of_normal(normalize, scheme_rules, basic)
        if mend:
            reference = _reference_kind(self).mend(reference)
        return self._resolve(reference, basic, normalize, scheme_rules)

    def join_link(
        self: _Absolute_,
        link: Union[str, Reference],
        *,
        normalize: bool = False,
        scheme_rules: bool = False,
        keep_fragment: bool = True,
    ) -> _Absolute_:
        """Returns the target of a link of a page, as an attribute such as `href` has it, against
        the page's address: the link is mended by `mend_link` and resolved.

        >>> Uri.parse("http://a/b/c#top").join_link(" ../x y\\n?[1]#z ", keep_fragment=False)
        Uri('http://a/x%20y?%5B1%5D')

        The fragment of the address plays no part. With `normalize` it returns the normal form of
        the target, which is by the rules of schemes if `scheme_rules` is true. Raises `ParseError`
        if the link cannot be mended, and `ResolveError` if it has no target.
        """
        if scheme_rules:
            _calls.rules_of_normal(normalize, scheme_rules)
        mended = _reference_kind(self).mend_link(link)
        target = self._resolve(mended, False, normalize, scheme_rules)
        if keep_fragment or target.fragment is None:
            return target
        return target.with_fragment(None)


@_calls.finished
class UriRef(_calls.UriRef, Reference, _WithOrigin):
    """A URI or a relative reference (RFC 3986, section 4.1)."""

    __slots__ = ()


@_calls.finished
class Uri(_Absolute, _calls.Uri, _WithOrigin):
    """A URI (RFC 3986, section 3)."""

    __slots__ = ()

    def relativize(
        self,
        target: Union[str, Reference],
        *,
        prefer_relative_path: bool = False,
        mend: bool = False,
    ) -> UriRef:
        """Returns a short reference that leads from this as its base to a target: the inverse of
        `resolve`. Resolved against the base, it is the target without its dot segments.

        >>> Uri.parse("http://a/b/c/d").relativize("http://a/b/x/y")
        UriRef('../x/y')
        >>> Uri.parse("http://a/b/c/d").relativize("http://a/x")
        UriRef('/x')
        >>> Uri.parse("http://a/b/c/d").relativize("http://a/x", prefer_relative_path=True)
        UriRef('../../x')

        With `prefer_relative_path` its path is relative also where that is longer, as in pages that
        are read from a disk. With `mend` it leads to what the target is mended to. Raises
        `ParseError` if the target is not a URI.
        """
        return self._relativize(Uri.mend(target) if mend else target, UriRef, prefer_relative_path)


@_calls.finished
class IriRef(_calls.IriRef, Reference):
    """An IRI or a relative reference (RFC 3987, section 2.2)."""

    __slots__ = ()

    def to_uri(self, *, ascii_host: _AsciiHost = None) -> UriRef:
        """Returns the URI reference: each character past ASCII as the octets of its UTF-8
        (RFC 3987, section 3.1).

        >>> IriRef.parse("/é").to_uri()
        UriRef('/%C3%A9')

        So is a host, which DNS has by another name: see `Iri.to_uri` for `ascii_host`.
        """
        if ascii_host is True:
            return self._to_uri_with_ascii_host(UriRef)
        return _with_ascii_host(self, ascii_host)._to_uri(UriRef)


@_calls.finished
class Iri(_Absolute, _calls.Iri):
    """An IRI (RFC 3987, section 2.2)."""

    __slots__ = ()

    def relativize(
        self,
        target: Union[str, Reference],
        *,
        prefer_relative_path: bool = False,
        mend: bool = False,
    ) -> IriRef:
        """Returns a short reference that leads from this as its base to a target: the inverse of
        `resolve`. Resolved against the base, it is the target without its dot segments.

        >>> Iri.parse("http://a/b/c").relativize("http://a/b/é")
        IriRef('é')

        With `prefer_relative_path` its path is relative also where that is longer, as in pages that
        are read from a disk. With `mend` it leads to what the target is mended to. Raises
        `ParseError` if the target is not an IRI.
        """
        return self._relativize(Iri.mend(target) if mend else target, IriRef, prefer_relative_path)

    def to_uri(self, *, ascii_host: _AsciiHost = None) -> Uri:
        """Returns the URI: each character past ASCII as the octets of its UTF-8 (RFC 3987,
        section 3.1).

        >>> Iri.parse("http://a/é").to_uri()
        Uri('http://a/%C3%A9')

        **A host past ASCII is then a name that DNS does not have.** If `ascii_host` is true, the
        host is the property `ascii_host`, as that section allows, and nothing else changes. Raises
        `AsciiHostError` if the host has no such name.

        >>> iri = Iri.parse("http://bücher.example/é")
        >>> iri.to_uri()
        Uri('http://b%C3%BCcher.example/%C3%A9')
        >>> iri.to_uri(ascii_host=True)
        Uri('http://xn--bcher-kva.example/%C3%A9')

        It may also be a function from such a host, as it is in the IRI, to its name in ASCII. A
        host that is ASCII stays: the function is not called.

        >>> iri.to_uri(ascii_host=lambda host: host.encode("idna").decode())
        Uri('http://xn--bcher-kva.example/%C3%A9')

        Raises what the function raises, `BuildError` if its result is no host, and `ValueError` if
        that is not ASCII.
        """
        if ascii_host is True:
            return self._to_uri_with_ascii_host(Uri)
        return _with_ascii_host(self, ascii_host)._to_uri(Uri)


def _reference_kind(base: _Absolute) -> Union[Type[UriRef], Type[IriRef]]:
    """The kind of the references against a base."""
    return UriRef if issubclass(type(base), Uri) else IriRef


for _named in (
    *(ParseError, ParseErrorKind, ResolveError, ResolveErrorKind, DotSegmentError),
    *(BuildError, BuildErrorKind, AsciiHostError, AsciiHostErrorKind, Component, decode, encode),
):
    _named.__module__ = __name__

# These need what is above.
from fluent_uri import batch  # noqa: E402
from fluent_uri._keys import compare, equivalent, sort_key  # noqa: E402

for _named in (compare, equivalent, sort_key):
    _named.__module__ = __name__
