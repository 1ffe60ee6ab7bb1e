"""What a call raises, and how the numbers of the shared library become exceptions."""

from __future__ import annotations

import enum

OUT_OF_MEMORY, INVALID_ARGUMENT = 8, 9


class ParseErrorKind(enum.IntEnum):
    """What is wrong with a text."""

    INVALID_PCT_ENCODED_OCTET = 1
    UNEXPECTED_CHAR = 2
    INVALID_IPV6_ADDR = 3
    NOT_UTF8 = 4


class ResolveErrorKind(enum.IntEnum):
    """Why a reference has no target against a base. No call raises `BASE_WITH_FRAGMENT` or
    `PATH_UNDERFLOW`."""

    BASE_WITH_FRAGMENT = 5
    INVALID_REFERENCE_AGAINST_OPAQUE_BASE = 6
    PATH_UNDERFLOW = 7
    PATH_STARTS_WITH_DOUBLE_SLASH = 12


class BuildErrorKind(enum.IntEnum):
    """Why no text is built of components."""

    INVALID_PCT_ENCODED_OCTET = 1
    UNEXPECTED_CHAR = 2
    INVALID_IPV6_ADDR = 3
    NOT_UTF8 = 4
    NONEMPTY_ROOTLESS_PATH = 11
    PATH_STARTS_WITH_DOUBLE_SLASH = 12
    FIRST_PATH_SEGMENT_CONTAINS_COLON = 13
    MISSING_COMPONENT = 14


class AsciiHostErrorKind(enum.IntEnum):
    """Why a host has no name in ASCII."""

    NAME_NOT_UTF8 = 15
    INVALID_NAME = 16


def _message(number: int) -> str:
    """What is wrong, by the number of an error: the library's words."""
    from fluent_uri import _native  # (which raises these errors)

    return _native.error_message(number)


class ParseError(ValueError):
    """A text is not of the kind.

    >>> from fluent_uri import Iri
    >>> try:
    ...     Iri.parse("http://é/ ")
    ... except ParseError as error:
    ...     error.kind.name, error.index, error.char_index
    ('UNEXPECTED_CHAR', 10, 9)

    `kind` says what is wrong, `index` at which byte of its UTF-8, and `char_index` at which
    character of the `str`. Where the text ends too early, they are its length.
    """

    kind: ParseErrorKind
    index: int
    char_index: int

    def __init__(self, kind: int, index: int, char_index: int) -> None:
        self.kind = ParseErrorKind(kind)
        self.index = index
        self.char_index = char_index
        super().__init__(self.kind, index, char_index)

    def __str__(self) -> str:
        said = f"{_message(self.kind)} at index {self.index}"
        if self.index != self.char_index:
            said += f" (character {self.char_index})"
        return said


class ResolveError(ValueError):
    """A reference has no target against a base: `kind` says why."""

    kind: ResolveErrorKind

    def __init__(self, kind: int) -> None:
        self.kind = ResolveErrorKind(kind)
        super().__init__(self.kind)

    def __str__(self) -> str:
        return _message(self.kind)


class AsciiHostError(ValueError):
    """A host has no name in ASCII: `kind` says why.

    >>> from fluent_uri import IriRef
    >>> for text in ["//%FF/", "//a..é/"]:
    ...     try:
    ...         IriRef.parse(text).ascii_host
    ...     except AsciiHostError as error:
    ...         print(f"{error.kind.name}: {error}")
    NAME_NOT_UTF8: registered name does not decode to valid UTF-8
    INVALID_NAME: invalid domain name
    """

    kind: AsciiHostErrorKind

    def __init__(self, kind: int) -> None:
        self.kind = AsciiHostErrorKind(kind)
        super().__init__(self.kind)

    def __str__(self) -> str:
        return _message(self.kind)


class BuildError(ValueError):
    """Components are not those of a text of the kind.

    >>> from fluent_uri import Uri
    >>> try:
    ...     Uri.build(scheme="http", host="a", path="/b?c")
    ... except BuildError as error:
    ...     error.kind.name, error.component, error.index
    ('UNEXPECTED_CHAR', 'path', 2)

    `kind` says what is wrong, and `component` in which one. `index` says at which byte of its
    UTF-8, and `char_index` at which character of the `str`; they are 0 where it is no character.
    """

    kind: BuildErrorKind
    component: str
    index: int
    char_index: int

    KINDS = frozenset(BuildErrorKind)

    def __init__(self, kind: int, component: str, index: int, char_index: int) -> None:
        self.kind = BuildErrorKind(kind)
        self.component = component
        self.index = index
        self.char_index = char_index
        super().__init__(self.kind, component, index, char_index)

    def __str__(self) -> str:
        if self.kind > ParseErrorKind.NOT_UTF8:
            return f"{_message(self.kind)}: {self.component}"
        said = f"{_message(self.kind)} at index {self.index} of the {self.component}"
        if self.index != self.char_index:
            said += f" (character {self.char_index})"
        return said


def exact(text: str) -> str:
    """The text of a str, also of one of a subclass."""
    if type(text) is str:
        return text
    if issubclass(type(text), str):
        return str.__str__(text)
    raise TypeError(f"a text is a str, not {type(text)!r}")


def utf8_of(text: str) -> bytes:
    """A str in UTF-8. A surrogate is three bytes, which the library reports as not UTF-8."""
    try:
        return text.encode()
    except UnicodeEncodeError:
        return text.encode("utf-8", "surrogatepass")


def error_of(number: int, index: int, data: bytes, is_link: bool = False) -> Exception:
    """The exception for a number of the library, with the index of a byte of the text: of a link,
    of what HTML leaves of it, unless it is not UTF-8."""
    if number in _PARSING:
        if is_link and number != ParseErrorKind.NOT_UTF8:
            data = data.strip(b" \t\n\f\r").translate(None, b"\t\n\r")
        return ParseError(number, index, len(data[:index].decode("utf-8", "surrogatepass")))
    if number in _RESOLVING:
        return ResolveError(number)
    if number in _HOSTS:
        return AsciiHostError(number)
    return number_error(number, index)


def number_error(number: int, index: int) -> Exception:
    """The exception for a number that says nothing of a text."""
    if number == OUT_OF_MEMORY:
        return MemoryError()
    if number == INVALID_ARGUMENT:
        return ValueError("the call has no such component")
    return SystemError(f"fluent_uri: error {number} at {index}")


_PARSING = frozenset(ParseErrorKind)
_RESOLVING = frozenset(ResolveErrorKind)
_HOSTS = frozenset(AsciiHostErrorKind)
