"""A text of a kind over ctypes: the bases of the four kinds where there is no compiled module."""

from __future__ import annotations

import ctypes
import struct
from typing import Any, Callable, List, Optional, Set, Tuple, Type, TypeVar, Union

from fluent_uri import _native
from fluent_uri._columns import Given, joined
from fluent_uri._declarations import OPTIONS, Pair
from fluent_uri._errors import ParseError, exact, utf8_of

Self = TypeVar("Self", bound="Reference")
Made = TypeVar("Made", bound="Reference")

# What the library wrote of a text, as numbers: error, kind of host, index, and the spans.
_PARTS = struct.Struct("=IIQ16Q")
_ABSENT = 2**64 - 1
# Of a component, where its start is among them.
_SCHEME, _AUTHORITY, _USERINFO, _HOST, _PORT, _PATH, _QUERY, _FRAGMENT = range(3, 19, 2)
_RELATIVE = OPTIONS["PREFER_RELATIVE_PATH"]
_RULES, _BASIC = OPTIONS["SCHEME_RULES"], OPTIONS["BASIC"]
# The classes of the kinds, which users see; a subclass of one is none.
FINISHED: Set[type] = set()


class Reference:
    # bytes: the text in UTF-8 where it is not ASCII. parts: what the library wrote of it, as bytes,
    # and as numbers once they are asked for.
    __slots__ = ("__text", "__bytes", "__parts")

    _number = -1
    __text: str
    __bytes: Optional[bytes]
    __parts: Union[bytes, Tuple[int, ...]]

    def __new__(cls: Type[Self], text: Union[str, Reference]) -> Self:
        return Reference._parsed(cls, text)  # type: ignore[no-any-return]

    @classmethod
    def parse(cls: Type[Self], text: Union[str, Reference], /) -> Self:
        """Returns the value of a text, or raises `ParseError` if the text is not of the kind."""
        return Reference._parsed(cls, text)  # type: ignore[no-any-return]

    @classmethod
    def try_parse(cls: Type[Self], text: Union[str, Reference], /) -> Optional[Self]:
        """Returns the value of a text, or None if the text is not of the kind."""
        return Reference._parsed(cls, text, lax=True)  # type: ignore[no-any-return]

    @classmethod
    def is_valid(cls, text: Union[str, Reference], /) -> bool:
        """Returns whether a text is of the kind."""
        return _is_of(kind_of(cls), text)

    @classmethod
    def mend(cls: Type[Self], text: Union[str, Reference], /) -> Self:
        """Returns the value that a text is mended to by the least change: what its path, query or
        fragment may not hold is percent-encoded. Raises `ParseError` if no text of the kind has its
        scheme and authority."""
        return Reference._mended(cls, _native.mend, text)

    @classmethod
    def mend_link(cls: Type[Self], link: Union[str, Reference], /) -> Self:
        """Returns what `mend` makes of a link of a page without the white space that HTML drops: at
        both ends, and each tab and line break."""
        return Reference._mended(cls, _native.mend_link, link)

    @staticmethod
    def _mended(cls: Type[Self], call: Callable[..., Any], given: Any) -> Self:
        """The value that a call makes of what is given as a text. It is the value that is given, if
        that is of the class, the class is a kind, and its text does not change."""
        number, data = kind_of(cls), utf8_of(text_given(given))
        made, parts = _native.made(call, (number,), data)
        if type(given) is cls and cls in FINISHED and made == data:
            return given
        return cls.__of(made.decode(), made, parts)

    @staticmethod
    def _parsed(cls: Type[Self], given: Any, lax: bool = False) -> Any:
        """The value of what is given as a text, or else None if `lax`. It is the value that is
        given, if that is of the class and the class is a kind."""
        number = getattr(cls, "_number", -1)
        if number < 0:
            raise TypeError(f"not a class of a kind: {cls!r}")
        if type(given) is not str:
            if type(given) is cls and cls in FINISHED:
                return given
            given = text_given(given)
        data = utf8_of(given)
        error, parts = _native.parsed(number, data)
        if not error:
            return cls.__of(given, data, parts)
        if lax:
            return None
        raise _native.rejection(error, parts, data)

    @classmethod
    def __of(cls: Type[Self], text: str, data: bytes, parts: bytes) -> Self:
        self = object.__new__(cls)
        self.__text = text
        self.__bytes = None if len(data) == len(text) else data
        self.__parts = parts
        return self

    def __getattr__(self, name: str) -> Any:
        if name in SLOTS:
            raise TypeError(f"{type(self).__name__!r} object was made without a text")
        raise AttributeError(f"{type(self).__name__!r} object has no attribute {name!r}")

    def __numbers(self) -> Tuple[int, ...]:
        parts = self.__parts
        if isinstance(parts, bytes):
            self.__parts = parts = _PARTS.unpack(parts)
        return parts

    def __utf8(self) -> bytes:
        return self.__text.encode() if self.__bytes is None else self.__bytes

    def __component(self, place: int) -> Optional[str]:
        at = self.__parts
        if isinstance(at, bytes):
            at = self.__numbers()
        start = at[place]
        if start == _ABSENT:
            return None
        data = self.__bytes
        if data is None:
            return self.__text[start : at[place + 1]]
        return data[start : at[place + 1]].decode()

    @property
    def scheme(self) -> Optional[str]:
        """The scheme without its `:`, or None."""
        return self.__component(_SCHEME)

    @property
    def authority(self) -> Optional[str]:
        """The authority without its `//`, or None."""
        return self.__component(_AUTHORITY)

    @property
    def userinfo(self) -> Optional[str]:
        """The userinfo without its `@`, or None."""
        return self.__component(_USERINFO)

    @property
    def host(self) -> Optional[str]:
        """The host, or None where there is no authority."""
        return self.__component(_HOST)

    @property
    def port(self) -> Optional[str]:
        """The port without its `:`, which may be empty, or None."""
        return self.__component(_PORT)

    @property
    def path(self) -> str:
        """The path, which may be empty."""
        return self.__component(_PATH) or ""

    @property
    def query(self) -> Optional[str]:
        """The query without its `?`, or None."""
        return self.__component(_QUERY)

    @property
    def fragment(self) -> Optional[str]:
        """The fragment without its `#`, or None."""
        return self.__component(_FRAGMENT)

    @property
    def _host_kind(self) -> int:
        return self.__numbers()[1]

    def __made(
        self,
        made_of: Type[Made],
        call: Callable[..., Any],
        numbers: Tuple[int, ...],
        *others: bytes,
    ) -> Made:
        """The value of the class whose text is a call's result. It is this itself, if it is of the
        class and does not change."""
        data = self.__utf8()
        made, parts = _native.made(call, numbers, data, *others)
        if not others and type(self) is made_of and made == data:
            return self
        return made_of.__of(made.decode(), made, parts)

    def normalize(self: Self, *, scheme_rules: bool = False) -> Self:
        """Returns the normal form (RFC 3986, section 6.2.2), without a default or empty port
        (section 6.2.3). With `scheme_rules` it is by the other rules of schemes too: `http://a` is
        `http://a/`."""
        numbers = self._number, _RULES if scheme_rules else 0
        return self.__made(type(self), _native.normalize, numbers)

    def _resolve(
        self: Self,
        reference: Union[str, Reference],
        basic: bool,
        normalize: bool,
        scheme_rules: bool,
    ) -> Self:
        other = Reference.__other(reference)
        if not normalize:
            numbers = self._number, _BASIC if basic else 0
            return self.__made(type(self), _native.resolve, numbers, other)
        numbers = self._number, _RULES if scheme_rules else 0
        return self.__made(type(self), _native.resolve_normalized, numbers, other)

    def _relativize(
        self, target: Union[str, Reference], made_of: Type[Made], prefers_relative_path: bool
    ) -> Made:
        self.__check(made_of, self._number + 1)
        numbers = self._number, _RELATIVE if prefers_relative_path else 0
        return self.__made(made_of, _native.relativize, numbers, Reference.__other(target))

    def _to_uri(self, made_of: Type[Made]) -> Made:
        self.__check(made_of, self._number - 2)
        return self.__made(made_of, _native.to_uri, (self._number,))

    def _to_uri_with_ascii_host(self, made_of: Type[Made]) -> Made:
        self.__check(made_of, self._number - 2)
        return self.__made(made_of, _native.to_uri_with_ascii_host, (self._number,))

    @staticmethod
    def __other(given: Any) -> bytes:
        made: bytes
        made = given.__utf8() if issubclass(type(given), Reference) else utf8_of(text_given(given))
        return made

    @staticmethod
    def __check(made_of: Type[Reference], number: int) -> None:
        if kind_of(made_of) != number:
            raise TypeError(f"not a class of the result's kind: {made_of!r}")

    def __str__(self) -> str:
        return self.__text

    def __repr__(self) -> str:
        return f"{type(self).__name__}({self.__text!r})"

    def __hash__(self) -> int:
        return hash(self.__text)

    def __eq__(self, other: object) -> bool:
        if not isinstance(other, Reference) or type(other) is not type(self):
            return NotImplemented
        return self.__text == other.__text

    def __lt__(self, other: object) -> bool:
        if not isinstance(other, Reference) or type(other) is not type(self):
            return NotImplemented
        return self.__text < other.__text

    def __le__(self, other: object) -> bool:
        if not isinstance(other, Reference) or type(other) is not type(self):
            return NotImplemented
        return self.__text <= other.__text

    def __gt__(self, other: object) -> bool:
        if not isinstance(other, Reference) or type(other) is not type(self):
            return NotImplemented
        return self.__text > other.__text

    def __ge__(self, other: object) -> bool:
        if not isinstance(other, Reference) or type(other) is not type(self):
            return NotImplemented
        return self.__text >= other.__text

    def __getnewargs__(self) -> Tuple[str]:
        return (self.__text,)


SLOTS = frozenset(f"_Reference{it}" for it in Reference.__slots__)


# Each kind has a slot of its own, so Python assigns no value the class of another kind.
class Uri(Reference):
    __slots__ = ("__uri",)
    _number = 0


class UriRef(Reference):
    __slots__ = ("__uri_ref",)
    _number = 1


class Iri(Reference):
    __slots__ = ("__iri",)
    _number = 2


class IriRef(Reference):
    __slots__ = ("__iri_ref",)
    _number = 3


def kind_of(cls: Type[Reference]) -> int:
    """The number of a class's kind."""
    for it in (Uri, UriRef, Iri, IriRef):
        if isinstance(cls, type) and issubclass(cls, it):
            return it._number
    raise TypeError(f"not a class of a kind: {cls!r}")


def text_of(value: Reference) -> str:
    """The text of a value, whatever a subclass makes of `str`."""
    if issubclass(type(value), Reference):
        return Reference.__str__(value)
    raise TypeError(f"not a value of a kind: {type(value)!r}")


def text_given(given: Any) -> str:
    """The text of a str, or of a value."""
    if type(given) is str:
        return given
    if issubclass(type(given), Reference):
        return Reference.__str__(given)
    if issubclass(type(given), str):
        return exact(given)
    raise TypeError(f"a text is a value of a kind or a str, not {type(given)!r}")


def parse_all(cls: Type[Self], texts: Tuple[Any, ...]) -> List[Optional[Self]]:
    """The value of each text, or None where it is not of the kind."""
    kind_of(cls)
    return [Reference._parsed(cls, it, lax=True) for it in texts]


def mend_all(cls: Type[Self], texts: Tuple[Any, ...]) -> List[Optional[Self]]:
    """The value that each text is mended to, or None where it cannot be."""
    kind_of(cls)
    return [_mended_or_none(cls, it) for it in texts]


def _mended_or_none(cls: Type[Self], given: Any) -> Optional[Self]:
    try:
        return Reference._mended(cls, _native.mend, given)
    except ParseError:
        return None


def are_valid(cls: Type[Reference], texts: Tuple[Any, ...]) -> List[bool]:
    """Whether each text is of the kind."""
    number = kind_of(cls)
    return [_is_of(number, it) for it in texts]


def _is_of(number: int, given: Any) -> bool:
    error, _ = _native.parsed(number, utf8_of(text_given(given)))
    return not error


def normalize_all(cls: Type[Reference], texts: Tuple[Any, ...]) -> List[Optional[str]]:
    """The normal form of each text, or None where it is not of the kind."""
    words = (kind_of(cls), 0)
    data, ends = joined(utf8_of(text_given(it)) for it in texts)
    made = Given(data, ends).done("normalize", words, lambda size, count: size + 2 * count)
    return made.texts()


def pairs_in(query: str) -> List[Tuple[str, Optional[str]]]:
    """The pairs of a query as they are: names and values, or None for a value without `=`."""
    data, position, pair = utf8_of(query), ctypes.c_size_t(), Pair()
    words = data, len(data), ctypes.addressof(position), ctypes.addressof(pair)
    found: List[Tuple[str, Optional[str]]] = []
    while _native.next_pair(*words):
        found.append((_span_of(data, pair.name) or "", _span_of(data, pair.value)))
    return found


def _span_of(data: bytes, at: Any) -> Optional[str]:
    """A part of a query, or None where it is absent."""
    if at.start == _ABSENT:
        return None
    return data[at.start : at.end].decode("utf-8", "surrogatepass")
