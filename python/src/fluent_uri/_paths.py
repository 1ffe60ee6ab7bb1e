"""The segments of a path and the pairs of a query: what each value has of them."""

from __future__ import annotations

from typing import Any, Iterable, List, Mapping, Optional, Tuple, TypeVar, Union

from fluent_uri import _calls
from fluent_uri._encoding import encode, text_of_data
from fluent_uri._errors import exact

_Self = TypeVar("_Self", bound="PathsAndQueries")


class DotSegmentError(ValueError):
    """A segment is `.` or `..`, which no encoding keeps from being removed (RFC 3986, sections 2.3
    and 6.2.2.3)."""

    def __init__(self) -> None:
        super().__init__("segment is `.` or `..`")

    def __reduce__(self) -> Tuple[Any, ...]:
        return DotSegmentError, ()


class PathsAndQueries:
    """The segments of a path (RFC 3986, section 3.3) and the pairs of a query (section 3.4)."""

    __slots__ = ()

    @property
    def encoded_segments(self) -> Tuple[str, ...]:
        """The segments of the path as they are: the texts between its `/`. None is before a `/`
        that begins the path, and an empty path has none.

        >>> Uri.parse("http://a/b%2Fc//d").encoded_segments
        ('b%2Fc', '', 'd')
        """
        path = _path_of(self)
        return tuple(path[path.startswith("/") :].split("/")) if path else ()

    @property
    def segments(self) -> Tuple[str, ...]:
        """The segments of the path, decoded. Bytes that are not UTF-8 become U+FFFD.

        >>> Uri.parse("http://a/b%2Fc//d").segments
        ('b/c', '', 'd')
        """
        return tuple(map(text_of_data, self.encoded_segments))

    @property
    def name(self) -> str:
        """The last segment of the path, decoded. It is empty where the path ends in `/` or is
        empty.

        >>> Uri.parse("http://a/b/c%20d?e").name
        'c d'
        """
        return text_of_data(_path_of(self).rpartition("/")[2])

    @property
    def parent(self: _Self) -> _Self:
        """The same without the last segment of the path, the query and the fragment. A `/` that
        begins the path stays.

        >>> Uri.parse("http://a/b/c?d").parent, Uri.parse("http://a/b").parent
        (Uri('http://a/b'), Uri('http://a/'))
        """
        before, slash, _ = _path_of(self).rpartition("/")
        return _with_path(self, before or slash)

    def __truediv__(self: _Self, name: str) -> _Self:
        """Returns the same with one more segment at the end of the path, and without the query and
        the fragment. The segment is percent-encoded as data, so no character of it ends it.

        >>> Uri.parse("http://a/b?c") / "d/e" / "f?"
        Uri('http://a/b/d%2Fe/f%3F')

        After a path that ends in `/` it takes the place of the empty last segment. Raises
        `DotSegmentError` if the segment is `.` or `..`.
        """
        if not issubclass(type(name), str):
            return NotImplemented
        path, segment = _path_of(self), _segment_of(name)
        if not path.endswith("/") and (path or _has_authority(self)):
            path += "/"
        return _with_path(self, path + segment)

    def with_name(self: _Self, name: str) -> _Self:
        """Returns the same with this last segment of the path in place of its own, and without the
        query and the fragment.

        >>> Uri.parse("http://a/b/c?d").with_name("e f")
        Uri('http://a/b/e%20f')

        Raises `DotSegmentError` if the segment is `.` or `..`.
        """
        path, segment = _path_of(self), _segment_of(name)
        before, slash, _ = path.rpartition("/")
        if not path and _has_authority(self):
            slash = "/"
        return _with_path(self, before + slash + segment)

    def query_pairs(self, *, plus_is_space: bool = False) -> List[Tuple[str, str]]:
        """Returns the pairs of the query, decoded: the texts between its `&` that are not empty,
        each cut at its first `=`. Without `=` the value is empty, and without a query there is no
        pair. Bytes that are not UTF-8 become U+FFFD.

        >>> Uri.parse("http://a/?name=ferret&page=2%263&c+d").query_pairs()
        [('name', 'ferret'), ('page', '2&3'), ('c+d', '')]

        With `plus_is_space` a `+` is a space, as in the queries of forms.

        >>> Uri.parse("http://a/?q=a+b%2B").query_pairs(plus_is_space=True)
        [('q', 'a b+')]
        """
        it: Any = self
        query = it.query or ""
        if plus_is_space:
            query = query.replace("+", "%20")
        pairs = _calls.pairs_in(query)
        return [(text_of_data(name), text_of_data(value or "")) for name, value in pairs]

    def with_query(
        self: _Self,
        pairs: Union[Mapping[str, str], Iterable[Tuple[str, str]], None],
        *,
        plus_is_space: bool = False,
    ) -> _Self:
        """Returns the same with the query of these pairs in place of its own, or with none if it is
        None. Each name and value is percent-encoded as data. So `query_pairs` returns the same
        pairs, whatever is in them.

        >>> Uri.parse("http://a/b?c#d").with_query([("name", "a b"), ("page", "2&3")])
        Uri('http://a/b?name=a%20b&page=2%263#d')

        With `plus_is_space` a space is written as `+`, for what reads it so. Of no pairs the query
        is empty. Raises `ParseError` for a surrogate.
        """
        text, mark, fragment = _calls.text_of(self).partition("#")  # type: ignore[arg-type]
        text = text.partition("?")[0]
        if pairs is not None:
            query = "&".join(f"{encode(name)}={encode(value)}" for name, value in _each(pairs))
            text += "?" + (query.replace("%20", "+") if plus_is_space else query)
        return _parsed(self, text + mark + fragment)


def _each(pairs: Any) -> Iterable[Tuple[str, str]]:
    """The pairs, or the items of a mapping: each a name and a value."""
    if issubclass(type(pairs), (str, bytes, bytearray, memoryview)):
        raise TypeError(f"a query is made of a mapping or of pairs, not of {type(pairs)!r}")
    for pair in pairs.items() if issubclass(type(pairs), Mapping) else pairs:
        if not issubclass(type(pair), (tuple, list)) or len(pair) != 2:
            raise TypeError(f"a pair is a name and a value, not {pair!r}")
        yield exact(pair[0]), exact(pair[1])


def _segment_of(name: str) -> str:
    text = exact(name)
    if text in (".", ".."):
        raise DotSegmentError
    return encode(text)


def _path_of(value: Any) -> str:
    path: str = value.path
    return path


def _has_authority(value: Any) -> bool:
    return value.authority is not None


def _with_path(value: _Self, path: str) -> _Self:
    """The value with this path, and without query and fragment."""
    it: Any = value
    scheme = "" if it.scheme is None else f"{it.scheme}:"
    authority = "" if it.authority is None else f"//{it.authority}"
    return _parsed(value, scheme + authority + path)


def _parsed(value: _Self, text: str) -> _Self:
    made: Any = type(value)
    return made.parse(text)  # type: ignore[no-any-return]
