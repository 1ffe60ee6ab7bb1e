"""What mypy must know of the calls: this file is checked, and not run."""

from array import array
from ipaddress import IPv4Address, IPv6Address, ip_address
from typing import Dict, List, Optional, Tuple, Union

from fluent_uri import AsciiHostError, AsciiHostErrorKind, BuildError, BuildErrorKind
from fluent_uri import HostKind, Iri, IriRef, ParseError, ParseErrorKind, Reference, Uri, UriRef
from fluent_uri import batch, decode, encode
from fluent_uri.parse import ParseResult, SplitResult, parse_qs, parse_qsl, quote, unquote
from fluent_uri.parse import urlencode, urldefrag, urljoin, urlparse, urlsplit, urlunsplit

uri: Uri = Uri.parse("http://a/b")
host: Optional[str] = uri.host
path: str = uri.path
kind: Optional[HostKind] = uri.host_kind
number: Optional[int] = uri.port_number
default: Optional[int] = uri.default_port
address: Union[IPv4Address, IPv6Address, None] = uri.host_address
origin: Optional[str] = uri.origin
ascii_host: Optional[str] = uri.ascii_host
normal: Uri = uri.normalize()
target: Uri = uri.resolve(UriRef("c"), normalize=True)
bare: Uri = uri.with_fragment(None)
built: Iri = Iri.build(scheme="http", host=ip_address("::1"), port=80, path="/", query=None)
replaced: Uri = uri.replace(host="a", port="80", path="/x", fragment=None)
made: Uri = Iri("http://é/").to_uri()
of_names: Uri = Iri("http://é/").to_uri(ascii_host=lambda host: host.encode("idna").decode())
of_dns: Uri = Iri("http://é/").to_uri(ascii_host=True)
made_ref: UriRef = IriRef("é").to_uri()
ref_of_dns: UriRef = IriRef("//é").to_uri(ascii_host=True)
data: bytes = decode("a")
text: str = encode("a") + encode(b"a")
values: List[Optional[Uri]] = batch.parse(["a:b"])
iris: List[Optional[Iri]] = batch.parse(["a:b"], Iri)
forms: List[Optional[str]] = batch.normalize(["a:b"], IriRef)
column: batch.Column = batch.normalize_column(b"a:b", array("I", [0, 3]), Uri)
texts: List[Optional[str]] = column.texts()
split: SplitResult = urlsplit("http://a/")
joined: str = urljoin("http://a/", "b")
parsed: ParseResult = urlparse("http://a/")
put: str = urlunsplit(("x", "", "y", None, None)) + urlunsplit(split)
bare_text: str = urldefrag("a#b").url + quote("a") + unquote("a") + urlencode({"a": 1})
pairs: Dict[str, List[str]] = parse_qs("a=b")
listed: List[Tuple[str, str]] = parse_qsl("a=b")
tried: Optional[Uri] = Uri.try_parse("a b")
valid: bool = Iri.is_valid(uri)
any_kind: Reference = uri
port: Optional[int] = any_kind.port_number
iri: Iri = Iri.parse(uri)
of_values: List[Optional[Iri]] = batch.parse([uri, "a:b"], Iri)
bits: memoryview = batch.is_valid_column(b"a:b", array("I", [0, 3]), Uri)
each: List[bool] = batch.is_valid(["a:b"])
by_the_letter: Uri = uri.resolve("c", basic=True)
all_by_the_letter: List[Optional[str]] = batch.resolve(uri, ["c"], basic=True)
ruled: Uri = uri.normalize(scheme_rules=True).resolve("a", normalize=True, scheme_rules=True)
all_ruled: List[Optional[str]] = batch.normalize(["a:b"], Uri, scheme_rules=True)
segments: Tuple[str, ...] = uri.segments + uri.encoded_segments
below: Uri = uri / "a" / uri.name
beside: IriRef = IriRef("a/b").parent.with_name("c")
query_pairs: List[Tuple[str, str]] = uri.query_pairs(plus_is_space=True)
with_pairs: Iri = iri.with_query(query_pairs).with_query({"a": "b"}, plus_is_space=True)
with_none: Reference = any_kind.with_query(None)
kept: str = encode("a%20b", keep_encoded=True)
short: List[Optional[str]] = batch.relativize(uri, ["a:b"], prefer_relative_path=True)
mended: UriRef = UriRef.mend("a b")
link: Iri = Iri.mend_link(" a:b c ")
joined_link: Uri = uri.join_link(" a b ", normalize=True, keep_fragment=False)
links: List[Optional[str]] = batch.join_links(uri, [" a b "])
of_mended: List[Optional[IriRef]] = batch.parse(["a b"], IriRef, mend=True)
mended_column: batch.Column = batch.mend_link_column(b"a b", array("I", [0, 3]))
relative: UriRef = uri.relativize("http://a/b c", prefer_relative_path=True, mend=True)


def which(error: BuildError) -> str:
    kind: BuildErrorKind = error.kind
    return error.component + kind.name + str(error.index + error.char_index)


def why(error: AsciiHostError) -> str:
    kind: AsciiHostErrorKind = error.kind
    return kind.name


def where(error: ParseError) -> int:
    kind: ParseErrorKind = error.kind
    return error.index + error.char_index + kind
