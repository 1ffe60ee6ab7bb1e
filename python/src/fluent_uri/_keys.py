"""Texts as keys: compared by their normal forms, and their keys for sorting."""

from __future__ import annotations

from typing import TYPE_CHECKING, Any, Tuple, Type, Union

from fluent_uri import Reference, Uri, _calls, _native, batch
from fluent_uri._declarations import OPTIONS
from fluent_uri._errors import utf8_of

if TYPE_CHECKING:
    from fluent_uri import Iri, IriRef, UriRef

    _AnyKind = Type[Union[Uri, UriRef, Iri, IriRef]]


def compare(
    one: Union[str, Reference],
    other: Union[str, Reference],
    kind: _AnyKind = Uri,
    *,
    scheme_rules: bool = False,
) -> int:
    """Returns -1, 0 or 1 where one text is before another, equivalent to it, or after it, by the
    bytes of their normal forms.

    >>> compare("HTTP://a:80/%7E", "http://a/~"), compare("http://a", "http://b")
    (0, -1)
    >>> compare("http://a", "http://a/"), compare("http://a", "http://a/", scheme_rules=True)
    (-1, 0)

    Texts that are not of the kind are after those that are, in the order of their bytes. So this is
    a total order. With `scheme_rules` normal forms are those of `normalize(scheme_rules=True)`. No
    normal form is made.
    """
    data, further = _bytes_of(one), _bytes_of(other)
    number = _calls.kind_of(kind)
    options = OPTIONS["SCHEME_RULES"] if scheme_rules else 0
    order: int = _native.compare(number, options, data, len(data), further, len(further))
    return order - 1


def equivalent(
    one: Union[str, Reference],
    other: Union[str, Reference],
    kind: _AnyKind = Uri,
    *,
    scheme_rules: bool = False,
) -> bool:
    """Returns whether two texts have one normal form, or are the same text that is not of the kind.

    >>> equivalent("HTTP://Example.com:80/%7Efoo/../b", "http://example.com/b")
    True
    >>> equivalent("http://a/b", "http://a/B")
    False
    """
    return compare(one, other, kind, scheme_rules=scheme_rules) == 0


def sort_key(
    text: Union[str, Reference], kind: _AnyKind = Uri, *, scheme_rules: bool = False
) -> Tuple[bool, str]:
    """Returns a key, which can be hashed: equal, less or greater as `compare` says of the texts.

    >>> sorted(["http://b", "HTTP://a/b", "no URI", "http://a/%62/c"], key=sort_key)
    ['HTTP://a/b', 'http://a/%62/c', 'http://b', 'no URI']
    >>> len({sort_key(it) for it in ["http://a", "HTTP://A:80", "http://a/"]})
    2

    A key is made once for each text, so sorting by it takes less time than by `compare`.
    """
    given: str = _calls.text_given(text)
    form = batch.normalize((given,), kind, scheme_rules=scheme_rules)[0]
    return (True, given) if form is None else (False, form)


def _bytes_of(text: Any) -> bytes:
    return utf8_of(_calls.text_given(text))
