"""Percent-encoding and the pairs of queries, with the names and results of `urllib.parse`."""

from __future__ import annotations

import re
from typing import Any, Callable, Dict, Iterable, List, Optional, Tuple, Union

from fluent_uri import Component, ParseError, decode, encode
from fluent_uri._errors import exact

# What a reference may hold: what a query may, the `%` of its octets, and the other delimiters.
_ALLOWED = frozenset(encode(bytes(range(128)), Component.QUERY) + "#[]")
_ASCII = re.compile("([\0-\x7f]+)")


def quote(
    string: Union[str, bytes],
    safe: Union[str, bytes] = "/",
    encoding: Optional[str] = None,
    errors: Optional[str] = None,
) -> str:
    """Returns the text, or the bytes, with each character percent-encoded that is neither
    unreserved (RFC 3986, section 2.3) nor named by `safe`.

    Raises `ParseError` for a surrogate, and `ValueError` if `safe` names a character that no
    reference may hold.
    """
    return _quoted(string, safe, encoding, errors, "%20")


def quote_plus(
    string: Union[str, bytes],
    safe: Union[str, bytes] = "",
    encoding: Optional[str] = None,
    errors: Optional[str] = None,
) -> str:
    """Returns what `quote` returns, with a `+` for each space."""
    return _quoted(string, safe, encoding, errors, "+")


def _quoted(
    string: Any, safe: Any, encoding: Optional[str], errors: Optional[str], space: str
) -> str:
    given: Any = string
    has_space = True
    if issubclass(type(string), str):
        given = exact(string)
        # In another encoding another character may have the byte of a space, and a mark is before
        # each text but the empty one.
        has_space = " " in given
        if given and (encoding is not None or errors is not None):
            given = given.encode(encoding or "utf-8", errors or "strict")
    elif encoding is not None or errors is not None:
        raise TypeError("bytes have no encoding, and no errors of one")
    text = encode(given, Component.DATA)
    if has_space:
        text = text.replace("%20", space)
    if issubclass(type(safe), bytes):
        safe = memoryview(safe).tobytes().decode("ascii", "ignore")
    # A `%` begins an octet, and so `%` itself is the last.
    for it in sorted(set(exact(safe)), key=lambda it: it == "%"):
        if it.isascii() and not it.isalnum():
            if it not in _ALLOWED:
                raise ValueError(f"no reference may hold {it!r}")
            text = text.replace(f"%{ord(it):02X}", it)
    return text


def unquote(string: str, encoding: str = "utf-8", errors: str = "replace") -> str:
    """Returns the text that a component stands for. `+` is no space.

    Raises `ParseError` if no component may hold the text, as `%zz`, `a b` or `#`.
    """
    return _unquoted(exact(string), encoding, errors, False)


def unquote_plus(string: str, encoding: str = "utf-8", errors: str = "replace") -> str:
    """Returns what `unquote` returns, with a space for each `+`."""
    return _unquoted(exact(string), encoding, errors, True)


def _unquoted(text: str, encoding: str, errors: str, has_spaces: bool) -> str:
    # A query may hold what any component may.
    data = decode(text, Component.QUERY)
    if "%" not in text:
        # What has no octet is a text already, and in no encoding.
        return text.replace("+", " ") if has_spaces else text
    if has_spaces and "+" in text:
        text = text.replace("+", "%20")
        data = decode(text, Component.QUERY)
    if encoding in ("utf-8", "utf8", "UTF-8"):
        return data.decode("utf-8", errors)
    pieces = _ASCII.split(text)
    for at in range(1, len(pieces), 2):
        pieces[at] = decode(pieces[at], Component.QUERY).decode(encoding, errors)
    return "".join(pieces)


def parse_qsl(
    qs: str,
    keep_blank_values: bool = False,
    strict_parsing: bool = False,
    encoding: str = "utf-8",
    errors: str = "replace",
    max_num_fields: Optional[int] = None,
    separator: str = "&",
) -> List[Tuple[str, str]]:
    """Returns the pairs of a query, decoded, with a space for each `+`. Those without a value are
    left out, unless `keep_blank_values`.

    Raises `ParseError` if no query may hold the text, and `ValueError` if there are more than
    `max_num_fields`, or, with `strict_parsing`, one without `=`.
    """
    text, separator = exact(qs), exact(separator)
    if not separator:
        raise ValueError("the separator is empty")
    decode(text, Component.QUERY)
    fields = text.split(separator) if text else []
    if max_num_fields is not None and len(fields) > max_num_fields:
        raise ValueError(f"there are more than {max_num_fields} fields")
    made = []
    for field in fields:
        name, mark, value = field.partition("=")
        if strict_parsing and not mark:
            raise ValueError(f"no `=` in the field {field!r}")
        if value or (field and keep_blank_values):
            made.append((_field(name, encoding, errors), _field(value, encoding, errors)))
    return made


def _field(text: str, encoding: str, errors: str) -> str:
    if "%" not in text and "+" not in text:
        return text
    try:
        return _unquoted(text, encoding, errors, True)
    except ParseError:
        # The separator was a part of an octet.
        raise ValueError(f"the separator cuts an octet of {text!r}") from None


def parse_qs(
    qs: str,
    keep_blank_values: bool = False,
    strict_parsing: bool = False,
    encoding: str = "utf-8",
    errors: str = "replace",
    max_num_fields: Optional[int] = None,
    separator: str = "&",
) -> Dict[str, List[str]]:
    """Returns the values of each name of a query, as `parse_qsl` has them."""
    made: Dict[str, List[str]] = {}
    for name, value in parse_qsl(
        qs, keep_blank_values, strict_parsing, encoding, errors, max_num_fields, separator
    ):
        made.setdefault(name, []).append(value)
    return made


def urlencode(
    query: Any,
    doseq: bool = False,
    safe: Union[str, bytes] = "",
    encoding: Optional[str] = None,
    errors: Optional[str] = None,
    quote_via: Callable[..., str] = quote_plus,
) -> str:
    """Returns the query of pairs, or of the items of a mapping. What is no `str` and no `bytes` is
    taken by its `str`. With `doseq` each item of a value that is a sequence makes a pair."""

    def quoted(it: Any) -> str:
        if isinstance(it, bytes):
            return quote_via(it, safe)
        return quote_via(it if isinstance(it, str) else str(it), safe, encoding, errors)

    made = []
    for name, value in _pairs(query):
        many = doseq and not isinstance(value, (str, bytes)) and hasattr(value, "__len__")
        made += [f"{quoted(name)}={quoted(it)}" for it in (value if many else [value])]
    return "&".join(made)


def _pairs(query: Any) -> Iterable[Tuple[Any, Any]]:
    if hasattr(query, "items"):
        return query.items()  # type: ignore[no-any-return]
    if isinstance(query, (str, bytes)):
        raise TypeError(f"a query is made of a mapping or of pairs, not of {type(query)!r}")
    return query  # type: ignore[no-any-return]
