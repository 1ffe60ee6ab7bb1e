"""Columns of texts: those that a call takes, and what it makes of one."""

from __future__ import annotations

import ctypes
from array import array
from contextlib import ExitStack
from functools import lru_cache
from itertools import accumulate
from operator import index as index_of
from typing import (
    Any,
    Callable,
    Iterable,
    List,
    Optional,
    Sequence,
    Tuple,
    Union,
    overload,
)

from fluent_uri import _native
from fluent_uri._buffers import Buffer, is_of_bytes, is_of_numbers
from fluent_uri._declarations import BUFFERS, ERRORS, Outcome
from fluent_uri._errors import error_of

_FULL, _INVALID = ERRORS["FULL"], ERRORS["INVALID_ARGUMENT"]
_WIDTH = BUFFERS["OFFSET_WIDTH"]
# By the size of an offset in bytes: its code for `array`, its type, and the end of a function's
# name.
_CODES, _SUFFIXES = {4: "I", 8: "Q"}, {4: "_batch", 8: "_batch64"}
_TYPES = {4: ctypes.c_uint32, 8: ctypes.c_uint64}
LARGEST_OFFSET = 2**31 - 1


def joined(texts: Iterable[bytes]) -> Tuple[bytes, Any]:
    """Data and offsets of the texts: offsets of 64 bits where 32 are too few for Arrow."""
    every = list(texts)
    ends = list(accumulate(map(len, every), initial=0))
    return b"".join(every), array("I" if ends[-1] <= LARGEST_OFFSET else "Q", ends)


class Column(Sequence[Optional[str]]):
    """Texts as Arrow holds them: text i is `data[offsets[i]:offsets[i + 1]]` in UTF-8, and bit i of
    `validity` is 1 where text i is there. As a sequence it has each text, or None where it is not
    there. A slice is a column.

    >>> made = Column(b"a:bc:d", array("I", [0, 3, 3, 6]), b"\\x05")
    >>> len(made), made[0], made[1], made[1:].texts()
    (3, 'a:b', None, [None, 'c:d'])
    """

    __slots__ = ("data", "offsets", "validity")

    data: memoryview
    offsets: Any
    validity: Any

    def __init__(self, data: Any, offsets: Any, validity: Any) -> None:
        views = [memoryview(it) for it in (data, offsets, validity)]
        if not (is_of_bytes(views[0]) and is_of_numbers(views[1]) and is_of_bytes(views[2])):
            raise ValueError("a column has bytes, offsets of 32 or 64 bits, and bytes of validity")
        if not all(it.ndim == 1 for it in views):
            raise ValueError("a column has buffers of one dimension")
        if len(views[1]) == 0 or views[2].nbytes < (len(views[1]) + 6) // 8:
            raise ValueError(f"{len(views[1])} offsets need one text less, and a bit for each")
        self.data, self.offsets, self.validity = views[0], offsets, validity

    def __len__(self) -> int:
        return len(self.offsets) - 1

    def texts(self) -> List[Optional[str]]:
        """Returns each text, or None where it is not there."""
        data, ends, validity = bytes(self.data), self.offsets, self.validity
        return [
            data[ends[at] : ends[at + 1]].decode() if validity[at >> 3] >> (at & 7) & 1 else None
            for at in range(len(ends) - 1)
        ]

    @overload
    def __getitem__(self, index: int) -> Optional[str]: ...

    @overload
    def __getitem__(self, index: slice) -> Column: ...

    def __getitem__(self, index: Union[int, slice]) -> Union[Optional[str], Column]:
        if isinstance(index, slice):
            return self._picked(range(len(self))[index])
        at = range(len(self))[index]
        return bytes(self._bytes(at)).decode() if self._has(at) else None

    def _bytes(self, at: int) -> memoryview:
        return self.data[self.offsets[at] : self.offsets[at + 1]]

    def _has(self, at: int) -> int:
        bit: int = self.validity[at >> 3] >> (at & 7) & 1
        return bit

    def _picked(self, places: range) -> Column:
        """The column of the texts at these places."""
        bits = bytearray((len(places) + 7) // 8)
        for to, at in enumerate(places):
            bits[to >> 3] |= self._has(at) << (to & 7)
        if places.step == 1:
            ends = self.offsets[places.start : places.start + len(places) + 1]
            return Column(self.data, ends, bits)
        data, ends = joined(bytes(self._bytes(at)) for at in places)
        return Column(data, array(_CODES[memoryview(self.offsets).itemsize], ends), bits)

    def __eq__(self, other: object) -> bool:
        if not isinstance(other, Column):
            return NotImplemented
        return self.texts() == other.texts()

    __hash__ = None  # type: ignore[assignment]

    def __repr__(self) -> str:
        return f"<Column of {len(self)} texts>"

    def __reduce__(self) -> Tuple[Any, ...]:
        # A slice leaves what is beside it.
        first, last = self.offsets[0], self.offsets[-1]
        code = _CODES[memoryview(self.offsets).itemsize]
        ends = array(code, [it - first for it in self.offsets])
        return Column, (bytes(self.data[first:last]), ends, bytes(self.validity))


class Given:
    """A column that a call takes: `count` of its texts, from `start` on, or all that follow."""

    __slots__ = ("data", "offsets", "validity", "large", "start", "count")

    def __init__(
        self,
        data: Any,
        offsets: Any,
        validity: Any = None,
        large: bool = False,
        start: int = 0,
        count: Optional[int] = None,
    ) -> None:
        self.data, self.offsets, self.validity = data, offsets, validity
        self.large, self.start, self.count = large, start, count

    def done(
        self, name: str, words: Tuple[Any, ...], room: Callable[[int, int], int]
    ) -> Column:
        """What a call makes of the texts. It gets the room that its results are expected to need,
        by the size of the texts and how many they are, and is made again with at least twice as
        much while that is too little."""
        with ExitStack() as held:
            made = self._done(held, name, words, room)
        return made

    def _done(
        self, held: ExitStack, name: str, words: Tuple[Any, ...], room: Callable[[int, int], int]
    ) -> Column:
        data = held.enter_context(_bytes_of(self.data, "data"))
        ends = held.enter_context(_Offsets(self.offsets, self.large))
        start, count = ends.range(self.start, self.count)
        bits = None
        if self.validity is not None:
            bits = held.enter_context(_bytes_of(self.validity, "validity"))
            needed = (start + count + 7) // 8
            if bits.size < needed:
                raise ValueError(f"validity has {bits.size} bytes, and the column needs {needed}")
        if count == 0:
            return Column(b"", array(_CODES[ends.width], [0]), bytearray())
        call = _function(name + _SUFFIXES[ends.width])
        words = (*words, data.address, data.size, ends.at(start), count + 1)
        size = room(min(ends.size_of(start, count), data.size), count)
        made = _made(call, words, start, count, ends.width, size)
        if bits is not None:
            _leave_out(made.validity, bits, start, count)
        return made


def _made(
    call: Callable[..., Any], words: Tuple[Any, ...], start: int, count: int, width: int, room: int
) -> Column:
    """What a call makes of texts whose buffers are held."""
    largest = LARGEST_OFFSET if width == 4 else 2**63 - 1
    while True:
        made, outcome = _tried(call, words, count, width, room)
        length = outcome.length if made else max(outcome.needed, room)
        if length > largest or outcome.error == _FULL and outcome.which == _WIDTH:
            raise OverflowError("the results need offsets of 64 bits")
        if made:
            return made
        if outcome.error == _INVALID:
            raise ValueError(
                f"an offset of text {start + outcome.index} falls or is past the data; where more "
                "offsets follow, `count` says how many texts there are"
            )
        if outcome.error != _FULL:
            raise error_of(outcome.error, 0, b"")
        room = max(outcome.needed, 2 * room + 64)


def _tried(
    call: Callable[..., Any], words: Tuple[Any, ...], count: int, width: int, room: int
) -> Tuple[Optional[Column], Outcome]:
    """What the call makes of the texts with this room, or None."""
    out, valid = bytearray(room), bytearray((count + 7) // 8)
    places = array(_CODES[width], bytes(width * (count + 1)))
    outcome = Outcome()
    with ExitStack() as held:
        texts, numbers, bits = (
            held.enter_context(Buffer(it, "a result", written=True)) for it in (out, places, valid)
        )
        error = call(
            *words,
            *(texts.address, texts.size),
            *(numbers.address, count + 1),
            *(bits.address, bits.size),
            ctypes.addressof(outcome),
        )
    if error:
        return None, outcome
    del out[outcome.length :]
    return Column(out, places, valid), outcome


class _Offsets(Buffer):
    """Offsets of 32 or 64 bits, as the items are. Those of bytes are of 32, or `large`."""

    __slots__ = ("width",)

    def __init__(self, given: Any, large: bool) -> None:
        view = memoryview(b"" if given is None else given)
        of_bytes = is_of_bytes(view)
        if not of_bytes and not is_of_numbers(view):
            raise ValueError(f"offsets are of 32 or 64 bits, not items of format {view.format!r}")
        self.width = (8 if large else 4) if of_bytes else view.itemsize
        super().__init__(view, "offsets", align=self.width)
        if self.size % self.width:
            self.__exit__()
            raise ValueError(f"offsets of {8 * self.width} bits have not {self.size} bytes")

    def range(self, start: int, count: Optional[int]) -> Tuple[int, int]:
        """The first text that is asked for, and how many are."""
        held = max(self.size // self.width - 1, 0)
        start = index_of(start)
        count = held - start if count is None else index_of(count)
        if start < 0 or count < 0 or start + count > held:
            raise ValueError(f"the offsets are those of {held} texts, not of {start} + {count}")
        return start, count

    def size_of(self, start: int, count: int) -> int:
        """How many bytes the texts have."""
        ends = (_TYPES[self.width].from_address(self.at(it)) for it in (start, start + count))
        first, last = (it.value for it in ends)
        return max(last - first, 0)

    def at(self, place: int) -> int:
        return (self.address or 0) + self.width * place


def _bytes_of(given: Any, name: str) -> Buffer:
    held = Buffer(given, name)
    if is_of_bytes(held.view):
        return held
    held.__exit__()
    raise ValueError(f"{name} has bytes, not items of format {memoryview(given).format!r}")


@lru_cache(maxsize=None)
def _function(name: str) -> Callable[..., Any]:
    return _native.function(name, lets_others_run=True)


def _leave_out(valid: Any, given: Buffer, start: int, count: int) -> None:
    """Has the bits that are 1 in both: those of the given texts begin at `start`."""
    first, last = start >> 3, (start + count + 7) >> 3
    wanted = int.from_bytes(given.view[first:last].tobytes(), "little") >> (start & 7)
    both = int.from_bytes(valid, "little") & wanted
    valid[:] = both.to_bytes(len(valid), "little")
