"""The bases of the four kinds, and the calls for many texts: those of the compiled module where it
is, else those by ctypes."""

from __future__ import annotations

import os
from typing import TYPE_CHECKING, Type, TypeVar

from fluent_uri import _native
from fluent_uri._errors import ParseError, ParseErrorKind, error_of

__all__ = [
    "BASES",
    "SLOTS",
    "Iri",
    "IriRef",
    "Reference",
    "Uri",
    "UriRef",
    "are_valid",
    "finished",
    "is_compiled",
    "kind_of",
    "mend_all",
    "normalize_all",
    "pairs_in",
    "parse_all",
    "rules_of_normal",
    "text_given",
    "text_of",
]

is_compiled = False

if TYPE_CHECKING:
    from fluent_uri._reference import (
        SLOTS,
        FINISHED,
        Iri,
        IriRef,
        Reference,
        Uri,
        UriRef,
        are_valid,
        kind_of,
        mend_all,
        normalize_all,
        pairs_in,
        parse_all,
        text_given,
        text_of,
    )
else:
    try:
        if os.environ.get("FLUENT_URI_CTYPES"):
            raise ImportError("FLUENT_URI_CTYPES asks for ctypes")
        from fluent_uri import _compiled as _chosen

        _chosen.open(_native.addresses(), error_of, ParseError, tuple(ParseErrorKind))
        is_compiled = True
    # (Python 3.12 cannot name a compiled module whose path is not UTF-8)
    except (ImportError, UnicodeEncodeError):
        from fluent_uri import _reference as _chosen
    Iri, IriRef, Uri, UriRef = _chosen.Iri, _chosen.IriRef, _chosen.Uri, _chosen.UriRef
    Reference = _chosen.Reference
    # What the compiled module needs not: the slots of a value, and the classes of the kinds.
    SLOTS, FINISHED = getattr(_chosen, "SLOTS", frozenset()), getattr(_chosen, "FINISHED", set())
    kind_of, text_of, text_given = _chosen.kind_of, _chosen.text_of, _chosen.text_given
    are_valid, normalize_all = _chosen.are_valid, _chosen.normalize_all
    mend_all, parse_all = _chosen.mend_all, _chosen.parse_all
    pairs_in = _chosen.pairs_in

BASES = (Uri, UriRef, Iri, IriRef)
_Class = TypeVar("_Class")
_OF_ITS_OWN = {"__dict__", "__module__", "__slots__", "__weakref__"}


def finished(cls: Type[_Class]) -> Type[_Class]:
    """The class of a kind, or the base of all. The compiled base itself is it, with all that the
    class has: its values are made and freed in half the time, as Python's collector has no part in
    them."""
    if not is_compiled:
        FINISHED.add(cls)
        return cls
    base = cls.__base__
    for it in reversed(cls.__mro__):
        for name, value in () if it in base.__mro__ else vars(it).items():
            if name not in _OF_ITS_OWN:
                setattr(base, name, value)
    return base


def rules_of_normal(normalize: bool, scheme_rules: bool, basic: bool = False) -> None:
    """The rules of schemes are those of a normal form: without one they are an error. So is a
    normal form with the basic algorithm."""
    if scheme_rules and not normalize:
        raise TypeError("scheme_rules goes with normalize")
    if basic and normalize:
        raise TypeError("basic does not go with normalize: normalize the target")
