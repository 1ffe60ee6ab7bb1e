"""The rows of crates/vectors/data, as README.txt there describes them, asked of the package."""

import ipaddress
import pathlib
import re
import struct

from fluent_uri import (
    AsciiHostError,
    Component,
    HostKind,
    Iri,
    IriRef,
    ParseError,
    ResolveError,
    Uri,
    UriRef,
    compare,
    decode,
    encode,
    sort_key,
)

DATA = pathlib.Path(__file__).resolve().parents[2] / "crates" / "vectors" / "data"
KINDS = {"uri": Uri, "uri-ref": UriRef, "iri": Iri, "iri-ref": IriRef}
COMPONENTS = {
    "userinfo": Component.USERINFO,
    "reg-name": Component.REG_NAME,
    "path": Component.PATH,
    "query": Component.QUERY,
    "fragment": Component.FRAGMENT,
    "data": Component.DATA,
}
ERRORS = {
    "INVALID_PCT_ENCODED_OCTET": "InvalidPctEncodedOctet",
    "UNEXPECTED_CHAR": "UnexpectedChar",
    "INVALID_IPV6_ADDR": "InvalidIpv6Addr",
    "INVALID_REFERENCE_AGAINST_OPAQUE_BASE": "InvalidReferenceAgainstOpaqueBase",
    "PATH_UNDERFLOW": "PathUnderflow",
    "PATH_STARTS_WITH_DOUBLE_SLASH": "PathStartsWithDoubleSlash",
    "NAME_NOT_UTF8": "NameNotUtf8",
    "INVALID_NAME": "InvalidName",
}
# What the package has no call for.
WITHOUT_A_CALL = {
    "compare-under",
    "normalize-by-every-rule",
    "normalize-by-rules-strict",
    "normalize-strict",
    "normalize-under",
    "print-ipv4",
    "print-ipv6",
    "resolve-strict",
    "rsplit-once",
    "same-scheme",
    "scheme",
    "segments",
    "socket",
    "split",
    "split-once",
    "table",
    "to-iri",
    "to-iri-ref",
    "to-uri",
    "to-uri-ref",
}


class Skipped(Exception):
    """A row that asks for what the package has no call for."""


def field(written):
    """The text of a field."""
    if written == '""':
        return ""
    text = re.sub(r"\\(\d+)\{([^}]*)\}", lambda it: int(it[1]) * it[2], written)
    text = re.sub(r"\\u\{([0-9A-Fa-f]+)\}", lambda it: chr(int(it[1], 16)), text)
    return text.replace("\\s", " ")


def rows():
    """File and line of each row, its operation, its fields and what is expected."""
    for file in sorted(DATA.glob("*.txt")):
        if file.name == "README.txt":
            continue
        for number, line in enumerate(file.read_text(encoding="utf-8").split("\n"), 1):
            if line.strip() and not line.startswith("#"):
                asked, expected = line.split(" -> ", 1)
                operation, *fields = asked.split()
                yield f"{file.name}:{number}", operation, fields, expected.split()


def components(value, names):
    given = ((name, getattr(value, name)) for name in names)
    return [f"{name}={text}" for name, text in given if text is not None]


def parse(kind, text):
    try:
        value = KINDS[kind].parse(text)
    except ParseError as error:
        return ["error:", *str(error).partition(" (")[0].split()]
    return components(value, ["scheme", "authority", "path", "query", "fragment"])


def parse_error(error, text):
    characters = text.encode()[: error.index].decode()
    assert error.char_index == len(characters)
    return [ERRORS[error.kind.name], str(error.index)]


def error(kind, text):
    try:
        KINDS[kind].parse(text)
    except ParseError as error:
        return parse_error(error, text)
    return ["none"]


def mend(kind, text):
    try:
        return [str(KINDS[kind].mend(text))]
    except ParseError as error:
        return parse_error(error, text)


def authority(kind, text):
    return components(KINDS[kind].parse(text), ["userinfo", "host", "port"])


def host(kind, text):
    value = KINDS[kind].parse(text)
    if value.host_kind is HostKind.REG_NAME:
        assert value.host_address is None
        return ["name", value.host]
    address = value.host_address
    if value.host_kind is HostKind.IPV4:
        assert address == ipaddress.IPv4Address(value.host)
        return ["ipv4", *map(str, address.packed)]
    if value.host_kind is HostKind.IPV_FUTURE:
        assert address is None
        return ["ipvfuture"]
    assert address == ipaddress.IPv6Address(value.host[1:-1])
    return ["ipv6", *(f"{it:x}" for it in struct.unpack(">8H", address.packed))]


def ipv6(kind, text):
    try:
        is_ipv6 = KINDS[kind].parse(text).host_kind is HostKind.IPV6
    except ParseError:
        is_ipv6 = False
    return host(kind, text) if is_ipv6 else ["none"]


def port(kind, text):
    try:
        number = KINDS[kind].parse(text).port_number
    except ValueError:
        return ["error"]
    return ["none" if number is None else str(number)]


def default_port(scheme):
    number = UriRef.build(scheme=scheme).default_port
    return ["none" if number is None else str(number)]


def normalize(kind, text):
    normal = KINDS[kind].parse(text).normalize()
    assert normal.normalize() == normal
    return [str(normal)]


def normalize_by_rules(kind, text):
    normal = KINDS[kind].parse(text).normalize(scheme_rules=True)
    assert normal.normalize(scheme_rules=True) == normal
    return [str(normal)]


def is_normal(kind, text):
    return ["yes" if str(KINDS[kind].parse(text).normalize()) == text else "no"]


def is_normal_by_rules(kind, text):
    return ["yes" if normalize_by_rules(kind, text) == [text] else "no"]


def order(kind, one, other, scheme_rules):
    found = compare(one, other, KINDS[kind], scheme_rules=scheme_rules)
    first, second = (sort_key(it, KINDS[kind], scheme_rules=scheme_rules) for it in (one, other))
    assert (first > second) - (first < second) == found
    assert (hash(first) == hash(second)) == (found == 0)
    return [("less", "equal", "greater")[found + 1]]


def compare_texts(kind, one, other):
    return order(kind, one, other, False)


def compare_by_rules(kind, one, other):
    return order(kind, one, other, True)


def ascii_host(kind, text):
    value = KINDS[kind].parse(text)
    if value.host is None:
        return [text]
    start = text.index("//") + 2
    start += 0 if value.userinfo is None else len(value.userinfo) + 1
    try:
        host = value.ascii_host
    except AsciiHostError as error:
        return ["error", ERRORS[error.kind.name]]
    return [text[:start] + host + text[start + len(value.host) :]]


def encode_as_uri(kind, text):
    return [str(KINDS[kind].parse(text).to_uri())]


def with_fragment(kind, text, given):
    fragment = None if given == "none" else given[1:]
    return [str(KINDS[kind].parse(text).with_fragment(fragment))]


def strip_fragment(kind, text):
    return [str(KINDS[kind].parse(text).with_fragment(None))]


def target(kind, base, reference, **options):
    base = KINDS[kind].parse(base)
    # Here the fragment of a base plays no part.
    if base.fragment is not None:
        raise Skipped
    try:
        return [str(base.resolve(reference, **options))]
    except ResolveError as error:
        return ["error", ERRORS[error.kind.name]]


def resolve(kind, base, reference):
    return target(kind, base, reference)


def resolve_normalized(kind, base, reference):
    return target(kind, base, reference, normalize=True)


def resolve_by_rules(kind, base, reference):
    return target(kind, base, reference, normalize=True, scheme_rules=True)


def resolve_basic(kind, base, reference):
    return target(kind, base, reference, basic=True)


def resolve_both(kind, base, reference):
    found = target(kind, base, reference)
    assert target(kind, base, reference, basic=True) == found
    return found


def relativize(kind, base, target):
    return [str(KINDS[kind].parse(base).relativize(target))]


def relativize_path(kind, base, target):
    return [str(KINDS[kind].parse(base).relativize(target, prefer_relative_path=True))]


def relativize_back(kind, base, to):
    found = relativize(kind, base, to)
    assert target(kind, base, *found) == [to]
    return found if target(kind, base, *found, basic=True) == [to] else [*found, "lost"]


def swap(kind, base, reference):
    base = KINDS[kind].parse(base)
    reference = KINDS[f"{kind}-ref"].parse(reference)
    after = base.resolve(reference).normalize()
    assert base.normalize().resolve(reference.normalize()).normalize() == after
    assert base.resolve(reference, normalize=True) == after
    return [str(after)]


def swap_as_uris(kind, base, reference):
    base = KINDS[kind].parse(base).to_uri()
    return swap("uri", str(base), str(IriRef.parse(reference).to_uri()))


def is_valid(encoder, text):
    try:
        decode(text, COMPONENTS[encoder])
    except KeyError:
        raise Skipped from None
    except ParseError:
        return ["no"]
    # `decode` takes what a component of an IRI may hold.
    if not text.isascii():
        raise Skipped
    return ["yes"]


def encode_text(encoder, text):
    if encoder not in COMPONENTS:
        raise Skipped
    return [encode(text, COMPONENTS[encoder])]


def encode_bytes(encoder, text):
    return [encode(bytes.fromhex(text.replace(",", "")), COMPONENTS[encoder])]


def held(path):
    return "owned" if "%" in path else "borrowed"


def to_bytes(path):
    return [held(path), *(f"{it:02X}" for it in decode(path))]


def to_string(path):
    data = decode(path)
    try:
        return [held(path), data.decode()]
    except UnicodeDecodeError:
        return ["not-utf8", *(f"{it:02X}" for it in data)]


def to_string_lossy(path):
    return [held(path), decode(path).decode(errors="replace")]


def read(path):
    data = decode(path)
    text = data.decode(errors="replace")
    is_text = data == text.encode()
    return [str(IriRef.parse(path).normalize()), "text" if is_text else "bytes", text]


CALLS = {
    "parse": parse,
    "error": error,
    "authority": authority,
    "host": host,
    "ipv6": ipv6,
    "port": port,
    "default-port": default_port,
    "mend": mend,
    "normalize": normalize,
    "normalize-by-rules": normalize_by_rules,
    "is-normal": is_normal,
    "is-normal-by-rules": is_normal_by_rules,
    "compare": compare_texts,
    "compare-by-rules": compare_by_rules,
    "ascii-host": ascii_host,
    "encode-as-uri": encode_as_uri,
    "with-fragment": with_fragment,
    "strip-fragment": strip_fragment,
    "resolve": resolve,
    "resolve-normalized": resolve_normalized,
    "resolve-by-rules": resolve_by_rules,
    "resolve-basic": resolve_basic,
    "resolve-both": resolve_both,
    "relativize": relativize,
    "relativize-path": relativize_path,
    "relativize-back": relativize_back,
    "swap": swap,
    "swap-as-uris": swap_as_uris,
    "is-valid": is_valid,
    "encode": encode_text,
    "encode-bytes": encode_bytes,
    "to-bytes": to_bytes,
    "to-string": to_string,
    "to-string-lossy": to_string_lossy,
    "read": read,
}


def result(operation, fields):
    """The words that the package returns for a row."""
    if operation in WITHOUT_A_CALL:
        raise Skipped
    return CALLS[operation](*map(field, fields))
