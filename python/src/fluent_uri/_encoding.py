"""Percent-encoding and decoding, of a component and of data."""

from __future__ import annotations

import enum
from typing import Any, Union

from fluent_uri import _native
from fluent_uri._errors import ParseError, ParseErrorKind, exact, utf8_of


class Component(enum.IntEnum):
    """The components whose characters `decode` and `encode` know."""

    USERINFO = 0
    REG_NAME = 1
    PATH = 2
    QUERY = 3
    FRAGMENT = 4
    DATA = 8


def decode(text: str, component: Component = Component.PATH) -> bytes:
    """Returns the bytes that a component stands for. They may be no UTF-8, and `+` is no space.

    >>> decode("a%20%C3%A9").decode()
    'a é'

    Raises `ParseError` if the component may not hold the text, and `ValueError` for `DATA`.
    """
    number = _number_of(component)
    return _native.result(_native.decode, number, utf8_of(exact(text)))


def encode(
    data: Union[str, bytes],
    component: Component = Component.DATA,
    *,
    keep_encoded: bool = False,
) -> str:
    """Returns the bytes, or the text in UTF-8, as a component. Each character that the component
    may hold stays, and every other byte is percent-encoded.

    >>> encode("a b/é")
    'a%20b%2F%C3%A9'
    >>> encode("a b/é", Component.PATH)
    'a%20b/%C3%A9'

    With `keep_encoded` each `%XX` of the text stays as it is: so what is encoded already is not
    encoded twice. It is the text that `mend` makes of a component.

    >>> encode("50%/a%20b c", Component.PATH, keep_encoded=True)
    '50%25/a%20b%20c'

    Raises `ParseError` if the text has a surrogate, which has no UTF-8, and with `keep_encoded` if
    the bytes are not UTF-8.
    """
    call = _native.mend_component if keep_encoded else _native.encode
    return _native.result(call, _number_of(component), _bytes_of(data)).decode()


def text_of_data(text: str) -> str:
    """The text that data stands for. Bytes that are not UTF-8 become U+FFFD."""
    return decode(text, Component.QUERY).decode("utf-8", "replace") if "%" in text else text


def _number_of(component: Component) -> int:
    """The number of a component, which may be given by that."""
    if type(component) is not Component and type(component) is not int:
        raise TypeError(f"a component is a Component, not {type(component)!r}")
    return int(Component(component))


def _bytes_of(data: Any) -> bytes:
    """The bytes of an object that has some, or of a text."""
    if issubclass(type(data), str):
        text = exact(data)
        try:
            return text.encode()
        except UnicodeEncodeError as error:
            at = error.start
        raise ParseError(ParseErrorKind.NOT_UTF8, len(text[:at].encode()), at)
    if issubclass(type(data), (bytes, bytearray, memoryview)):
        return memoryview(data).tobytes()
    raise TypeError(f"what is encoded is a str or bytes, not {type(data)!r}")
