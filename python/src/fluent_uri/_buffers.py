"""The addresses of buffers, by Python's buffer protocol: nothing is copied."""

from __future__ import annotations

import ctypes
from typing import Any, Optional, TypeVar


class _View(ctypes.Structure):
    """`Py_buffer`, of Python's C interface."""

    _fields_ = [
        ("buf", ctypes.c_void_p),
        ("obj", ctypes.c_void_p),
        ("len", ctypes.c_ssize_t),
        ("itemsize", ctypes.c_ssize_t),
        ("readonly", ctypes.c_int),
        ("ndim", ctypes.c_int),
        ("format", ctypes.c_char_p),
        ("shape", ctypes.c_void_p),
        ("strides", ctypes.c_void_p),
        ("suboffsets", ctypes.c_void_p),
        ("internal", ctypes.c_void_p),
    ]


# What to ask of an object: contiguous bytes, and whether they are written to.
_READ, _WRITE = 0, 1
_get = ctypes.PYFUNCTYPE(ctypes.c_int, ctypes.py_object, ctypes.c_void_p, ctypes.c_int)(
    ("PyObject_GetBuffer", ctypes.pythonapi)
)
_release = ctypes.PYFUNCTYPE(None, ctypes.c_void_p)(("PyBuffer_Release", ctypes.pythonapi))

# By its format, what an item is; its size is beside it.
_BYTES, _NUMBERS = frozenset("bBc"), frozenset("iIlLqQnN")
_ORDERS = "@=<"


def is_of_bytes(view: memoryview) -> bool:
    return view.itemsize == 1 and view.format.lstrip(_ORDERS) in _BYTES


def is_of_numbers(view: memoryview) -> bool:
    """Whether the items are integers of 32 or 64 bits in the order of this machine."""
    return view.itemsize in (4, 8) and view.format.lstrip(_ORDERS) in _NUMBERS


Held = TypeVar("Held", bound="Buffer")


class Buffer:
    """The memory of an object, held up to the end of a `with` block: the object is asked for it
    once. What is not aligned is copied. None has no memory."""

    __slots__ = ("_view", "view", "address", "size")

    view: memoryview
    address: Optional[int]
    size: int

    def __init__(self, given: Any, name: str, *, align: int = 1, written: bool = False) -> None:
        self.view = memoryview(b"" if given is None else given)
        try:
            if self.view.ndim != 1 or not self.view.c_contiguous:
                raise ValueError(f"{name} must be contiguous and have one dimension")
            self._view = _View()
            self._hold(_WRITE if written else _READ)
            if (self.address or 0) % align:
                _release(ctypes.addressof(self._view))
                given, self.view = self.view, memoryview(self.view.tobytes())
                given.release()
                self._hold(_READ)
        except BaseException:
            self.view.release()
            raise

    def _hold(self, how: int) -> None:
        _get(self.view, ctypes.addressof(self._view), how)
        self.address, self.size = self._view.buf, self._view.len

    def __enter__(self: Held) -> Held:
        return self

    def __exit__(self, *_: object) -> None:
        _release(ctypes.addressof(self._view))
        self.view.release()
