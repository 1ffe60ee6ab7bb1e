"""Many texts in one call: as a list of `str`, or as a column.

A column is data and offsets, as Apache Arrow and what builds on it hold texts: text i is
`data[offsets[i]:offsets[i + 1]]` in UTF-8. Data, offsets and validity are taken as any object with
a buffer, such as `bytes`, `array.array`, a numpy array, or what `pyarrow.Array.buffers()` returns.

>>> from fluent_uri import batch
>>> batch.normalize(["HTTP://A", "a b"])
['http://a', None]
>>> data, offsets = batch.column(["http://a/b", "x:", "no"])
>>> batch.component_column(data, offsets, "path").texts()
['/b', '', None]

The calls for columns give up the interpreter's lock while they run, so threads share a column by
its offsets. No thread may change a buffer meanwhile.
"""

from __future__ import annotations

from typing import (
    TYPE_CHECKING,
    Any,
    Iterable,
    List,
    Optional,
    Tuple,
    Type,
    TypeVar,
    Union,
    overload,
)

from fluent_uri import Iri, IriRef, Reference, Uri, UriRef, _calls
from fluent_uri._column_calls import (
    component_column,
    is_valid_column,
    mend_column,
    mend_link_column,
    normalize_column,
    query_column,
    relativize_column,
    resolve_column,
    to_uri_column,
)
from fluent_uri._columns import Column, joined
from fluent_uri._errors import utf8_of

__all__ = [
    "Column",
    "column",
    "component",
    "component_column",
    "is_valid",
    "is_valid_column",
    "join_links",
    "mend",
    "mend_column",
    "mend_link",
    "mend_link_column",
    "normalize",
    "normalize_column",
    "parse",
    "query",
    "query_column",
    "relativize",
    "relativize_column",
    "resolve",
    "resolve_column",
    "to_uri",
    "to_uri_column",
]

_Kind = TypeVar("_Kind", Uri, UriRef, Iri, IriRef)
if TYPE_CHECKING:
    # (typing would keep the classes of a package that is dropped)
    _AnyKind = Type[Union[Uri, UriRef, Iri, IriRef]]
    _Texts = Iterable[Union[str, Reference]]


@overload
def parse(texts: _Texts, *, mend: bool = ...) -> List[Optional[Uri]]: ...


@overload
def parse(
    texts: _Texts, kind: Type[_Kind], *, mend: bool = ...
) -> List[Optional[_Kind]]: ...


def parse(texts: _Texts, kind: Any = Uri, *, mend: bool = False) -> List[Optional[Any]]:
    """Returns the value of each text, or None where it is not of the kind. With `mend` each text is
    taken as what `mend` makes of it, here and in each call that has the word."""
    call = _calls.mend_all if mend else _calls.parse_all
    return call(kind, tuple(_each(texts)))


def is_valid(texts: _Texts, kind: _AnyKind = Uri) -> List[bool]:
    """Returns whether each text is of the kind."""
    return _calls.are_valid(kind, tuple(_each(texts)))


def normalize(
    texts: _Texts, kind: _AnyKind = Uri, *, scheme_rules: bool = False, mend: bool = False
) -> List[Optional[str]]:
    """Returns the normal form of each text, or None where it is not of the kind.

    >>> normalize(["http://A", "file://localhost/a"], scheme_rules=True)
    ['http://a/', 'file:///a']
    """
    if mend or scheme_rules:
        made = normalize_column(*column(texts), kind, scheme_rules=scheme_rules, mend=mend)
        return made.texts()
    return _calls.normalize_all(kind, tuple(_each(texts)))


def mend(texts: _Texts, kind: _AnyKind = UriRef) -> List[Optional[str]]:
    """Returns what each text is mended to by the least change, as `UriRef.mend` does, or None where
    it cannot be.

    >>> mend(["/a b?[1]", "http://a b/"])
    ['/a%20b?%5B1%5D', None]
    """
    return mend_column(*column(texts), kind).texts()


def mend_link(links: _Texts, kind: _AnyKind = UriRef) -> List[Optional[str]]:
    """Returns what each link of a page is mended to, without the white space that HTML drops, or
    None where it cannot be."""
    return mend_link_column(*column(links), kind).texts()


def join_links(
    base: Union[Uri, Iri],
    links: _Texts,
    *,
    normalize: bool = False,
    scheme_rules: bool = False,
    keep_fragment: bool = True,
) -> List[Optional[str]]:
    """Returns the target of each link of a page, as `base.join_link` does, or None where there is
    none.

    >>> join_links(Uri("http://a/b#c"), [" x y ", "http://a b/", "#d"], keep_fragment=False)
    ['http://a/x%20y', None, 'http://a/b']
    """
    kind: _AnyKind = IriRef if issubclass(type(base), Iri) else UriRef
    made = mend_link_column(*column(links), kind)
    targets = resolve_column(
        base,
        made.data,
        made.offsets,
        normalize=normalize,
        scheme_rules=scheme_rules,
        validity=made.validity,
    ).texts()
    if keep_fragment:
        return targets
    return [it if it is None else it.partition("#")[0] for it in targets]


def to_uri(
    texts: _Texts, kind: _AnyKind = Iri, *, mend: bool = False
) -> List[Optional[str]]:
    """Returns each IRI, or IRI reference, as a URI, or None where a text is not of the kind."""
    return to_uri_column(*column(texts), kind, mend=mend).texts()


def resolve(
    base: Union[Uri, Iri],
    references: _Texts,
    *,
    basic: bool = False,
    normalize: bool = False,
    scheme_rules: bool = False,
    mend: bool = False,
) -> List[Optional[str]]:
    """Returns the target of each reference against a base, or None where there is none.

    With `basic` they are those of `base.resolve(basic=True)`.

    >>> resolve(Uri("foo:b"), ["g", "?q"]), resolve(Uri("foo:b"), ["g", "?q"], basic=True)
    ([None, None], ['foo:g', 'foo:b?q'])
    """
    return resolve_column(
        base,
        *column(references),
        basic=basic,
        normalize=normalize,
        scheme_rules=scheme_rules,
        mend=mend,
    ).texts()


def relativize(
    base: Union[Uri, Iri],
    targets: _Texts,
    *,
    prefer_relative_path: bool = False,
    mend: bool = False,
) -> List[Optional[str]]:
    """Returns a short reference from a base to each target, or None where a target is rejected.

    >>> relativize(Uri("http://a/b/c"), ["http://a/b/d", "x:y", "no"])
    ['d', 'x:y', None]
    """
    return relativize_column(
        base, *column(targets), prefer_relative_path=prefer_relative_path, mend=mend
    ).texts()


def query(texts: _Texts, kind: _AnyKind = Uri, *, mend: bool = False) -> List[Optional[str]]:
    """Returns the query of each text, or None where it has none or is not of the kind."""
    return component(texts, "query", kind, mend=mend)


def component(
    texts: _Texts, component: str, kind: _AnyKind = Uri, *, mend: bool = False
) -> List[Optional[str]]:
    """Returns a component of each text, by its name, or None where the text has no such component
    or is not of the kind.

    >>> component(["http://a/b?c", "x:", "no"], "path")
    ['/b', '', None]
    """
    return component_column(*column(texts), component, kind, mend=mend).texts()


def column(texts: _Texts) -> Tuple[bytes, Any]:
    """Returns data and offsets of the texts: offsets of 64 bits where 32 are too few for Arrow."""
    return joined(utf8_of(_calls.text_given(it)) for it in _each(texts))


def _each(texts: _Texts) -> _Texts:
    """The texts, which are no text themselves."""
    if issubclass(type(texts), (str, bytes, bytearray, memoryview)):
        raise TypeError(f"the texts are an iterable of str, not one {type(texts)!r}")
    return texts
