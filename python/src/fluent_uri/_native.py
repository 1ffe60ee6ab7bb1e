"""The shared library: where it is, its functions by ctypes, and how a result is fetched."""

from __future__ import annotations

import ctypes
import os
import pathlib
from itertools import islice
from typing import Any, Callable, Dict, List, Optional, Tuple

from fluent_uri._declarations import FUNCTIONS, NUMBER, PORTS, SONAME, Outcome, Parts
from fluent_uri._errors import error_of


def _path() -> str:
    """The library that FLUENT_URI_LIBRARY names, else the one beside this file, else the
    system's."""
    beside = pathlib.Path(__file__).with_name(SONAME)
    return os.environ.get("FLUENT_URI_LIBRARY") or (str(beside) if beside.exists() else SONAME)


# What x86-64-v2 has beside the first x86-64, by the names of /proc/cpuinfo.
_V2 = {"cx16", "lahf_lm", "popcnt", "sse4_1", "sse4_2", "ssse3"}
_TOO_OLD = f"{SONAME} needs a processor of x86-64-v2 (SSE4.2), and this one is older"


def _lacks(cpuinfo: str) -> bool:
    """Whether a processor lacks instructions of x86-64-v2, by its lines of /proc/cpuinfo."""
    flags = [it.partition(":")[2].split() for it in cpuinfo.splitlines() if it.startswith("flags")]
    return bool(flags) and not _V2 <= set(flags[0])


def _is_too_old() -> bool:
    """Whether the processor is too old, where the C library does not look for that: glibc does from
    2.33 on."""
    try:
        name, _, version = (os.confstr("CS_GNU_LIBC_VERSION") or "").partition(" ")
        if name == "glibc" and tuple(map(int, version.split(".")[:2])) >= (2, 33):
            return False
        with open("/proc/cpuinfo", encoding="ascii", errors="replace") as file:
            return _lacks("".join(islice(file, 40)))
    except (AttributeError, OSError, ValueError):
        return False


def _opened(name: str) -> ctypes.CDLL:
    try:
        return ctypes.CDLL(name)
    except (OSError, UnicodeDecodeError) as error:
        # (ctypes cannot say so of a path that is not UTF-8)
        if "ISA level" in str(error):
            raise ImportError(f"{_TOO_OLD} ({error})") from error
        raise ImportError(
            f"fluent_uri cannot load the shared library {SONAME}: put it beside this package, or "
            f"where the system looks for libraries, or name it in FLUENT_URI_LIBRARY ({error})"
        ) from error


if _is_too_old():
    raise ImportError(_TOO_OLD)
path = _path()
library = _opened(path)


def function(name: str, *, lets_others_run: bool = False) -> Callable[..., Any]:
    """A function of the library. One that lets others run gives up the interpreter's lock; a call
    for one text is too short for that."""
    call: Any = ctypes.CFUNCTYPE if lets_others_run else ctypes.PYFUNCTYPE
    typed: Any = call(NUMBER, *FUNCTIONS[name])
    try:
        made: Callable[..., Any] = typed((f"fluent_uri_{name}", library))
    except AttributeError as error:
        raise ImportError(f"not a {SONAME} of this package's version: {error}") from error
    return made


def has_version(wanted: str) -> bool:
    """Whether the library has this version, but for its last number."""
    major, minor, _ = map(int, wanted.split("."))
    found: int = function("version")()
    return found >> 8 == major << 8 | minor


def addresses() -> Dict[str, int]:
    """Where each function of the library is."""
    found = {it: getattr(library, f"fluent_uri_{it}", None) for it in FUNCTIONS}
    return {it: ctypes.cast(call, ctypes.c_void_p).value or 0 for it, call in found.items() if call}


message_of = function("error_message")
parse = function("parse")
normalize = function("normalize")
resolve = function("resolve")
resolve_normalized = function("resolve_normalized")
relativize = function("relativize")
to_uri = function("to_uri")
to_uri_with_ascii_host = function("to_uri_with_ascii_host")
decode = function("decode")
encode = function("encode")
mend = function("mend")
mend_link = function("mend_link")
mend_component = function("mend_component")
next_pair = function("next_pair")
build = function("build")
host_address = function("host_address")
_default_port = function("default_port")
origin = function("origin")
ascii_host = function("ascii_host")
compare = function("compare")
_port_number = function("port_number")


# The size of a room for a result at first, and of the largest that is kept.
_SMALLEST, _LARGEST_KEPT = 4096, 65536


class _Room:
    """Memory for a result, the positions of its components, and its outcome."""

    __slots__ = ("size", "memory", "address", "view", "parts", "parts_address", "outcome",
                 "outcome_address")

    def __init__(self, size: int) -> None:
        self.size = size
        self.memory = ctypes.create_string_buffer(size)
        self.address = ctypes.addressof(self.memory)
        self.view = memoryview(self.memory)
        self.parts = ctypes.create_string_buffer(ctypes.sizeof(Parts))
        self.parts_address = ctypes.addressof(self.parts)
        self.outcome = Outcome()
        self.outcome_address = ctypes.addressof(self.outcome)


# Rooms that calls take and give back: list.pop and list.append are atomic, so no two threads hold
# the same one. There are as many as calls that ran at once: where one is too small it is dropped.
_rooms: List[_Room] = []


def _taken(size: int) -> _Room:
    if size > _LARGEST_KEPT:
        return _Room(size)
    try:
        room = _rooms.pop()
    except IndexError:
        room = _Room(_SMALLEST)
    return room if size <= room.size else _Room(_LARGEST_KEPT)


def _given_back(room: _Room) -> None:
    if room.size <= _LARGEST_KEPT:
        _rooms.append(room)


def parsed(kind: int, data: bytes) -> Tuple[int, bytes]:
    """Why a text is not of the kind, or 0, and what the parser writes of it: Parts."""
    room = _taken(0)
    error = parse(kind, data, len(data), room.parts_address)
    parts = room.parts.raw
    _given_back(room)
    return error, parts


def rejection(error: int, parts: bytes, data: bytes) -> Exception:
    """The exception for a text that is not of a kind."""
    return error_of(error, Parts.from_buffer_copy(parts).index, data)


def made(
    call: Callable[..., Any], numbers: Tuple[int, ...], *texts: bytes
) -> Tuple[bytes, bytes]:
    """The text that a call makes of one text or two, and what the parser writes of that. The
    numbers are the kind, and the options of a call that has some."""
    words: List[Any] = [*numbers]
    for it in texts:
        words += it, len(it)
    room, length = _called(call, words, sum(map(len, texts)) + 64, True)
    parts = room.parts.raw
    result = room.view[:length].tobytes()
    _given_back(room)
    return result, parts


def result(call: Callable[..., Any], component: int, data: bytes) -> bytes:
    """What `decode` or `encode` makes of bytes."""
    room, length = _called(call, [component, data, len(data)], len(data), False)
    result = room.view[:length].tobytes()
    _given_back(room)
    return result


def _called(
    call: Callable[..., Any], words: List[Any], expected: int, has_parts: bool
) -> Tuple[_Room, int]:
    """The room with a call's result, and the length of that. The words end with the text that an
    error is about, and its length."""
    room = _taken(expected)
    while True:
        parts = (room.parts_address, 1) if has_parts else ()
        error = call(*words, room.address, room.size, *parts, room.outcome_address)
        length: int = room.outcome.length
        if error:
            index: int = room.outcome.index
            _given_back(room)
            raise error_of(error, index, words[-2], call is mend_link)
        if length <= room.size:
            return room, length
        room = _taken(length)


def default_port(scheme: bytes) -> int:
    """The default port of a scheme, or 0 if it has none."""
    port: int = _default_port(scheme, len(scheme))
    return port


def port_number(kind: int, data: bytes) -> Optional[int]:
    """The number of a text's port, or None where it is absent or empty."""
    port = NUMBER()
    error = _port_number(kind, data, len(data), ctypes.addressof(port))
    if error:
        raise error_of(error, 0, data)
    if port.value == PORTS["PORT_TOO_LARGE"]:
        raise ValueError("port is above 65535")
    number: int = port.value
    return number if number < 65536 else None


def error_message(number: int) -> str:
    """What is wrong, by the number of an error."""
    room, length = _called(message_of, [number], 0, False)
    message = room.view[:length].tobytes().decode()
    _given_back(room)
    return message


def built(kind: int, data: bytes, spans: bytes) -> Tuple[bytes, int, int, int]:
    """The text that is built of components, whose spans of the data are `fluent_uri_components`;
    or no bytes, and the error, the component that is rejected, and the index in it."""
    room = _taken(len(data) + 64)
    while True:
        error: int = build(kind, data, len(data), spans, room.address, room.size, None, 0,
                           room.outcome_address)
        outcome = room.outcome
        which, index, length = outcome.which, outcome.index, outcome.length
        if error or length <= room.size:
            made = b"" if error else room.view[:length].tobytes()
            _given_back(room)
            return made, error, which, index
        room = _taken(length)
