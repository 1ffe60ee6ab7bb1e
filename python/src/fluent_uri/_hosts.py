"""The host and the port of a text: an address, a name in ASCII, a number, and the origin."""

from __future__ import annotations

import ipaddress
from typing import Any, Optional

from fluent_uri import _calls, _native
from fluent_uri._building import Address


def _text_of(value: Any) -> bytes:
    """The text of a value in UTF-8, whatever a subclass makes of it."""
    return _calls.text_of(value).encode()


def _kind_of(value: Any) -> int:
    return _calls.kind_of(type(value))


class Hosts:
    """The host and the port of a text of any kind (RFC 3986, sections 3.2.2 and 3.2.3)."""

    __slots__ = ()

    @property
    def host_address(self) -> Optional[Address]:
        """The address that the host is, or None where it is a name or there is none.

        >>> Uri.parse("http://[2001:db8::7]/").host_address
        IPv6Address('2001:db8::7')
        >>> Uri.parse("http://127.1/").host_address is None
        True

        An address of a version to come (`HostKind.IPV_FUTURE`) is None too.
        """
        octets = _native.result(_native.host_address, _kind_of(self), _text_of(self))
        if not octets:
            return None
        return ipaddress.IPv4Address(octets) if len(octets) == 4 else ipaddress.IPv6Address(octets)

    @property
    def ascii_host(self) -> Optional[str]:
        """The host in ASCII, as DNS has it, or None where there is no authority (RFC 3987, section
        3.1).

        >>> Iri.parse("http://bücher.example/").ascii_host
        'xn--bcher-kva.example'
        >>> Uri.parse("http://b%C3%BCcher.example/").ascii_host
        'xn--bcher-kva.example'
        >>> Uri.parse("http://Example.com/").ascii_host
        'Example.com'

        A name with characters past ASCII is converted by UTS 46, without transitional processing.
        Every other host is returned as it is: an address, and a name that decodes to ASCII. Raises
        `AsciiHostError` if the name does not decode to UTF-8, or UTS 46 rejects it.
        """
        kind = _kind_of(self)
        if _calls.BASES[kind].host.__get__(self) is None:
            return None
        return _native.result(_native.ascii_host, kind, _text_of(self)).decode()

    @property
    def port_number(self) -> Optional[int]:
        """The number of the port, or None where the port is absent or empty. Raises `ValueError` if
        it is above 65535, which no kind forbids."""
        return _native.port_number(_kind_of(self), _text_of(self))

    @property
    def default_port(self) -> Optional[int]:
        """The default port of the scheme, as normalising knows it, or None where it has none.

        >>> uri = Uri.parse("https://a:8443/")
        >>> uri.port_number, uri.default_port
        (8443, 443)
        """
        scheme: Optional[str] = _calls.BASES[_kind_of(self)].scheme.__get__(self)
        return _native.default_port((scheme or "").encode()) or None


class WithOrigin:
    """What URIs and URI references have besides."""

    __slots__ = ()

    @property
    def origin(self) -> Optional[str]:
        """The origin in ASCII: scheme and host of the normal form, and the port where it is not the
        scheme's default one (RFC 6454, section 6.2).

        >>> Uri.parse("HTTP://user@Example.com:80/a").origin
        'http://example.com'
        >>> Uri.parse("https://a:08443/").origin
        'https://a:8443'
        >>> Uri.parse("file:///etc/hosts").origin is None
        True

        It is None where the scheme has no default port, as `file` and `data` have none, where there
        is no host or an empty one, and where the port is above 65535. RFC 6454 writes `null` there,
        but no two such texts have the same origin.
        """
        made = _native.result(_native.origin, _kind_of(self), _text_of(self))
        return made.decode() or None
