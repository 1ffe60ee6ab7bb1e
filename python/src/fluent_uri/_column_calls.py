"""The calls of `fluent_uri.batch` for columns."""

from __future__ import annotations

from typing import TYPE_CHECKING, Any, Optional, Tuple, Type, Union

from fluent_uri import Iri, IriRef, Uri, UriRef, _calls
from fluent_uri._calls import rules_of_normal
from fluent_uri._columns import Column, Given
from fluent_uri._declarations import COMPONENTS, KINDS, OPTIONS
from fluent_uri._errors import exact, utf8_of

if TYPE_CHECKING:
    # (typing would keep the classes of a package that is dropped)
    _AnyKind = Type[Union[Uri, UriRef, Iri, IriRef]]
# The components that a text has, by their names; `DATA` is for encoding alone.
_COMPONENTS = {name.lower(): it for name, it in COMPONENTS.items() if name != "DATA"}


def normalize_column(
    data: Any,
    offsets: Any,
    kind: _AnyKind = Uri,
    *,
    scheme_rules: bool = False,
    mend: bool = False,
    validity: Any = None,
    large: bool = False,
    start: int = 0,
    count: Optional[int] = None,
) -> Column:
    """Returns the normal forms of a column, with no text where one is not of the kind. With
    `scheme_rules` they are those of `normalize(scheme_rules=True)`.

    Offsets are of 32 or 64 bits, as the buffer's items are. Of a buffer of bytes they are of 32, or
    of 64 with `large`. A text that `validity` leaves out is left out of the result. `count` texts
    are taken, from `start` on, as Arrow counts those of a slice; without `count` all that follow.
    With `mend` each text is taken as what `mend_column` makes of it.

    >>> from array import array
    >>> normalize_column(b"HTTP://Aa b", array("I", [0, 8, 11])).texts()
    ['http://a', None]

    Raises `ValueError` for what is no column, and `OverflowError` if the results need offsets of
    64 bits and the column has others.
    """
    number = _calls.kind_of(kind)
    texts = _mended(number, mend, Given(data, offsets, validity, large, start, count))
    words = (number, _rules(scheme_rules))
    return texts.done("normalize", words, lambda size, count: size + 2 * count)


def _rules(scheme_rules: bool) -> int:
    """The options of a normal form."""
    return OPTIONS["SCHEME_RULES"] if scheme_rules else 0


def mend_column(
    data: Any,
    offsets: Any,
    kind: _AnyKind = UriRef,
    *,
    validity: Any = None,
    large: bool = False,
    start: int = 0,
    count: Optional[int] = None,
) -> Column:
    """Returns what each text of a column is mended to by the least change, as `UriRef.mend` does,
    with no text where one cannot be, as `normalize_column` does."""
    texts = Given(data, offsets, validity, large, start, count)
    return texts.done("mend", (_calls.kind_of(kind),), _mended_size)


def mend_link_column(
    data: Any,
    offsets: Any,
    kind: _AnyKind = UriRef,
    *,
    validity: Any = None,
    large: bool = False,
    start: int = 0,
    count: Optional[int] = None,
) -> Column:
    """Returns what each link of a column is mended to, as `mend_column` does, without the white
    space that HTML drops."""
    texts = Given(data, offsets, validity, large, start, count)
    return texts.done("mend_link", (_calls.kind_of(kind),), _mended_size)


def to_uri_column(
    data: Any,
    offsets: Any,
    kind: _AnyKind = Iri,
    *,
    mend: bool = False,
    validity: Any = None,
    large: bool = False,
    start: int = 0,
    count: Optional[int] = None,
) -> Column:
    """Returns the URIs of a column of IRIs, or of IRI references, as `normalize_column` does."""
    number = _calls.kind_of(kind)
    if number not in (KINDS["IRI"], KINDS["IRI_REF"]):
        raise TypeError(f"what becomes URIs is of the kind Iri or IriRef, not {kind!r}")
    texts = _mended(number, mend, Given(data, offsets, validity, large, start, count))
    return texts.done("to_uri", (number,), lambda size, _: size)


def resolve_column(
    base: Union[Uri, Iri],
    data: Any,
    offsets: Any,
    *,
    basic: bool = False,
    normalize: bool = False,
    scheme_rules: bool = False,
    mend: bool = False,
    validity: Any = None,
    large: bool = False,
    start: int = 0,
    count: Optional[int] = None,
) -> Column:
    """Returns the targets of a column of references against a base, as `normalize_column` does.

    With `basic` they are those of `resolve(basic=True)`."""
    rules_of_normal(normalize, scheme_rules, basic)
    number, text, length = _base(base)
    reference = number + KINDS["URI_REF"] - KINDS["URI"]
    texts = _mended(reference, mend, Given(data, offsets, validity, large, start, count))
    name = "resolve_normalized" if normalize else "resolve"
    options = _rules(scheme_rules) if normalize else OPTIONS["BASIC"] if basic else 0
    words = (number, options, text, length)
    return texts.done(name, words, lambda size, count: size + count * (length + 3))


def relativize_column(
    base: Union[Uri, Iri],
    data: Any,
    offsets: Any,
    *,
    prefer_relative_path: bool = False,
    mend: bool = False,
    validity: Any = None,
    large: bool = False,
    start: int = 0,
    count: Optional[int] = None,
) -> Column:
    """Returns short references from a base to a column of targets, as `normalize_column` does. With
    `prefer_relative_path` the paths are relative also where that is longer."""
    number, text, length = _base(base)
    texts = _mended(number, mend, Given(data, offsets, validity, large, start, count))
    options = OPTIONS["PREFER_RELATIVE_PATH"] if prefer_relative_path else 0
    words = (number, options, text, length)
    return texts.done("relativize", words, lambda size, count: size + 2 * count)


def component_column(
    data: Any,
    offsets: Any,
    component: str,
    kind: _AnyKind = Uri,
    *,
    mend: bool = False,
    validity: Any = None,
    large: bool = False,
    start: int = 0,
    count: Optional[int] = None,
) -> Column:
    """Returns a component of each text of a column, by its name, as `normalize_column` does, with
    no text where the component is absent."""
    name = exact(component)
    if name not in _COMPONENTS:
        raise ValueError(f"no component {name!r}: {', '.join(_COMPONENTS)}")
    number = _calls.kind_of(kind)
    texts = _mended(number, mend, Given(data, offsets, validity, large, start, count))
    return texts.done("component", (number, _COMPONENTS[name]), lambda size, _: size)


def query_column(
    data: Any,
    offsets: Any,
    kind: _AnyKind = Uri,
    *,
    mend: bool = False,
    validity: Any = None,
    large: bool = False,
    start: int = 0,
    count: Optional[int] = None,
) -> Column:
    """Returns the query of each text of a column, as `component_column` does."""
    which = dict(validity=validity, large=large, start=start, count=count)
    return component_column(data, offsets, "query", kind, mend=mend, **which)


def is_valid_column(
    data: Any,
    offsets: Any,
    kind: _AnyKind = Uri,
    *,
    validity: Any = None,
    large: bool = False,
    start: int = 0,
    count: Optional[int] = None,
) -> memoryview:
    """Returns whether each text of a column is of the kind, as the bits that Arrow has of booleans:
    bit i of byte j is that of text 8j + i. That of a text which `validity` leaves out is 0.

    >>> from array import array
    >>> bytes(is_valid_column(b"a:ba b", array("I", [0, 3, 6])))
    b'\\x01'
    """
    texts = Given(data, offsets, validity, large, start, count)
    number = _calls.kind_of(kind)
    # What each text of the kind has.
    is_absolute = number in (KINDS["URI"], KINDS["IRI"])
    words = (number, COMPONENTS["SCHEME" if is_absolute else "PATH"])
    made = texts.done("component", words, lambda size, n: min(size, 8 * n) if is_absolute else size)
    return memoryview(made.validity)


def _mended_size(size: int, count: int) -> int:
    return size + size // 8 + 2 * count


def _mended(number: int, mend: bool, texts: Given) -> Given:
    """The texts, or what they are mended to as the kind of the number."""
    if not mend:
        return texts
    made = texts.done("mend", (number,), _mended_size)
    return Given(made.data, made.offsets, made.validity)


def _base(base: Union[Uri, Iri]) -> Tuple[int, bytes, int]:
    """What a call takes of a base."""
    if not issubclass(type(base), (_calls.Uri, _calls.Iri)):
        raise TypeError(f"a base is a Uri or an Iri, not {type(base)!r}")
    text = utf8_of(_calls.text_of(base))
    return _calls.kind_of(type(base)), text, len(text)
