"""What `fluent_uri.h` declares, for ctypes: names, types and their order, and constants.

`c/declare` writes this file, from the exports of the library.
"""

from __future__ import annotations

import ctypes
from typing import Any, Dict, Tuple

SONAME = "libfluent_uri_c.so.0"

KINDS = {"URI": 0, "URI_REF": 1, "IRI": 2, "IRI_REF": 3}
ERRORS = {
    "OK": 0,
    "INVALID_PCT_ENCODED_OCTET": 1,
    "UNEXPECTED_CHAR": 2,
    "INVALID_IPV6_ADDR": 3,
    "NOT_UTF8": 4,
    "BASE_WITH_FRAGMENT": 5,
    "INVALID_REFERENCE_AGAINST_OPAQUE_BASE": 6,
    "PATH_UNDERFLOW": 7,
    "OUT_OF_MEMORY": 8,
    "INVALID_ARGUMENT": 9,
    "FULL": 10,
    "NONEMPTY_ROOTLESS_PATH": 11,
    "PATH_STARTS_WITH_DOUBLE_SLASH": 12,
    "FIRST_PATH_SEGMENT_CONTAINS_COLON": 13,
    "MISSING_COMPONENT": 14,
    "NAME_NOT_UTF8": 15,
    "INVALID_NAME": 16,
}
COMPONENTS = {
    "USERINFO": 0,
    "HOST": 1,
    "PATH": 2,
    "QUERY": 3,
    "FRAGMENT": 4,
    "SCHEME": 5,
    "AUTHORITY": 6,
    "PORT": 7,
    "DATA": 8,
}
HOST_KINDS = {"NO_HOST": 0, "REG_NAME": 1, "IPV4": 2, "IPV6": 3, "IPV_FUTURE": 4}
BUFFERS = {"OUT": 0, "OUT_OFFSETS": 1, "VALID": 2, "PARTS": 3, "LINE_ERRORS": 4, "OFFSET_WIDTH": 5}
OPTIONS = {"PREFER_RELATIVE_PATH": 1, "SCHEME_RULES": 2, "BASIC": 4}
PORTS = {"NO_PORT": 65536, "EMPTY_PORT": 65537, "PORT_TOO_LARGE": 65538}


class Span(ctypes.Structure):
    _fields_ = [("start", ctypes.c_size_t), ("end", ctypes.c_size_t)]


class Parts(ctypes.Structure):
    _fields_ = [
        ("error", ctypes.c_uint32),
        ("host_kind", ctypes.c_uint32),
        ("index", ctypes.c_size_t),
        ("scheme", Span),
        ("authority", Span),
        ("userinfo", Span),
        ("host", Span),
        ("port", Span),
        ("path", Span),
        ("query", Span),
        ("fragment", Span),
    ]


class Pair(ctypes.Structure):
    _fields_ = [("name", Span), ("value", Span)]


class Components(ctypes.Structure):
    _fields_ = [
        ("scheme", Span),
        ("userinfo", Span),
        ("host", Span),
        ("port", Span),
        ("path", Span),
        ("query", Span),
        ("fragment", Span),
    ]


class Outcome(ctypes.Structure):
    _fields_ = [
        ("error", ctypes.c_uint32),
        ("which", ctypes.c_uint32),
        ("index", ctypes.c_size_t),
        ("length", ctypes.c_size_t),
        ("needed", ctypes.c_size_t),
        ("consumed", ctypes.c_size_t),
    ]


# Each argument by the type that the header gives it. A pointer is passed as an address, and that
# of one text as bytes.
NUMBER, SIZE, WORD = ctypes.c_uint32, ctypes.c_size_t, ctypes.c_uint64
BYTES, OUT = ctypes.c_char_p, ctypes.c_void_p
_TEXT = (BYTES, SIZE)
_BUFFER = (OUT, SIZE)

FUNCTIONS: Dict[str, Tuple[Any, ...]] = {
    "version": (),
    "normal_version": (),
    "error_name": (NUMBER, *_BUFFER, OUT),
    "error_message": (NUMBER, *_BUFFER, OUT),
    "parse": (NUMBER, *_TEXT, OUT),
    "is_normal": (NUMBER, NUMBER, *_TEXT),
    "compare": (NUMBER, NUMBER, *_TEXT, *_TEXT),
    "hash": (NUMBER, NUMBER, WORD, *_TEXT, OUT),
    "host_address": (NUMBER, *_TEXT, *_BUFFER, OUT),
    "port_number": (NUMBER, *_TEXT, OUT),
    "default_port": (*_TEXT,),
    "origin": (NUMBER, *_TEXT, *_BUFFER, OUT),
    "ascii_host": (NUMBER, *_TEXT, *_BUFFER, OUT),
    "normalize": (NUMBER, NUMBER, *_TEXT, *_BUFFER, *_BUFFER, OUT),
    "resolve": (NUMBER, NUMBER, *_TEXT, *_TEXT, *_BUFFER, *_BUFFER, OUT),
    "resolve_normalized": (NUMBER, NUMBER, *_TEXT, *_TEXT, *_BUFFER, *_BUFFER, OUT),
    "relativize": (NUMBER, NUMBER, *_TEXT, *_TEXT, *_BUFFER, *_BUFFER, OUT),
    "build": (NUMBER, *_TEXT, OUT, *_BUFFER, *_BUFFER, OUT),
    "to_uri": (NUMBER, *_TEXT, *_BUFFER, *_BUFFER, OUT),
    "to_uri_with_ascii_host": (NUMBER, *_TEXT, *_BUFFER, *_BUFFER, OUT),
    "mend": (NUMBER, *_TEXT, *_BUFFER, *_BUFFER, OUT),
    "mend_link": (NUMBER, *_TEXT, *_BUFFER, *_BUFFER, OUT),
    "decode": (NUMBER, *_TEXT, *_BUFFER, OUT),
    "encode": (NUMBER, *_TEXT, *_BUFFER, OUT),
    "mend_component": (NUMBER, *_TEXT, *_BUFFER, OUT),
    "next_pair": (*_TEXT, OUT, OUT),
    "normalize_batch": (NUMBER, NUMBER, *_BUFFER, *_BUFFER, *_BUFFER, *_BUFFER, *_BUFFER, OUT),
    "normalize_batch64": (NUMBER, NUMBER, *_BUFFER, *_BUFFER, *_BUFFER, *_BUFFER, *_BUFFER, OUT),
    "to_uri_batch": (NUMBER, *_BUFFER, *_BUFFER, *_BUFFER, *_BUFFER, *_BUFFER, OUT),
    "to_uri_batch64": (NUMBER, *_BUFFER, *_BUFFER, *_BUFFER, *_BUFFER, *_BUFFER, OUT),
    "resolve_batch": (
        NUMBER, NUMBER, *_TEXT, *_BUFFER, *_BUFFER, *_BUFFER, *_BUFFER, *_BUFFER, OUT,
    ),
    "resolve_batch64": (
        NUMBER, NUMBER, *_TEXT, *_BUFFER, *_BUFFER, *_BUFFER, *_BUFFER, *_BUFFER, OUT,
    ),
    "resolve_normalized_batch": (
        NUMBER, NUMBER, *_TEXT, *_BUFFER, *_BUFFER, *_BUFFER, *_BUFFER, *_BUFFER, OUT,
    ),
    "resolve_normalized_batch64": (
        NUMBER, NUMBER, *_TEXT, *_BUFFER, *_BUFFER, *_BUFFER, *_BUFFER, *_BUFFER, OUT,
    ),
    "relativize_batch": (
        NUMBER, NUMBER, *_TEXT, *_BUFFER, *_BUFFER, *_BUFFER, *_BUFFER, *_BUFFER, OUT,
    ),
    "relativize_batch64": (
        NUMBER, NUMBER, *_TEXT, *_BUFFER, *_BUFFER, *_BUFFER, *_BUFFER, *_BUFFER, OUT,
    ),
    "mend_batch": (NUMBER, *_BUFFER, *_BUFFER, *_BUFFER, *_BUFFER, *_BUFFER, OUT),
    "mend_batch64": (NUMBER, *_BUFFER, *_BUFFER, *_BUFFER, *_BUFFER, *_BUFFER, OUT),
    "mend_link_batch": (NUMBER, *_BUFFER, *_BUFFER, *_BUFFER, *_BUFFER, *_BUFFER, OUT),
    "mend_link_batch64": (NUMBER, *_BUFFER, *_BUFFER, *_BUFFER, *_BUFFER, *_BUFFER, OUT),
    "decode_batch": (NUMBER, *_BUFFER, *_BUFFER, *_BUFFER, *_BUFFER, *_BUFFER, OUT),
    "decode_batch64": (NUMBER, *_BUFFER, *_BUFFER, *_BUFFER, *_BUFFER, *_BUFFER, OUT),
    "encode_batch": (NUMBER, *_BUFFER, *_BUFFER, *_BUFFER, *_BUFFER, *_BUFFER, OUT),
    "encode_batch64": (NUMBER, *_BUFFER, *_BUFFER, *_BUFFER, *_BUFFER, *_BUFFER, OUT),
    "component_batch": (NUMBER, NUMBER, *_BUFFER, *_BUFFER, *_BUFFER, *_BUFFER, *_BUFFER, OUT),
    "component_batch64": (NUMBER, NUMBER, *_BUFFER, *_BUFFER, *_BUFFER, *_BUFFER, *_BUFFER, OUT),
    "parse_batch": (NUMBER, *_BUFFER, *_BUFFER, *_BUFFER, OUT),
    "parse_batch64": (NUMBER, *_BUFFER, *_BUFFER, *_BUFFER, OUT),
    "normalize_lines": (NUMBER, NUMBER, *_BUFFER, *_BUFFER, *_BUFFER, OUT),
}
