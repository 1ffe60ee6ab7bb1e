// Included once for each crate, which is `crate_of` here: all that a text leads to, line by line.
use crate_of::build::Builder;
use crate_of::component::{Host, Scheme};
use crate_of::normalize::Normalizer;
use crate_of::pct_enc::{DecodedChunk, EStr, EString, Encoder, Table, encoder::*};
use crate_of::resolve::Resolver;
use crate_of::{Iri, IriRef, Uri, UriRef};
use std::fmt::{Debug, Write};

const BASES: [&str; 9] = [
    "http://a/b/c/d;p?q",
    "http://user@[::1]:80/x/../y/%2E%2e?z",
    "foo:bar/baz",
    "foo:/a/./b/..",
    "foo:",
    "x:/",
    "http://h",
    "http://é.example/ä/b",
    "a:b#f",
];
const REFERENCES: [&str; 14] = [
    "", "g", "./g/.", "../../../g", "//h/./x/..", "?y", "#s", "g:h/../i", "/./g", "%2e%2E/g",
    ".//b", "..", "g;x=1/../y", "é/../ö?ü#x",
];

fn line(report: &mut String, name: &str, value: impl Debug) {
    writeln!(report, "{name} {value:?}").expect("a line");
}

fn decoded_lines<E: Encoder>(text: &EStr<E>, report: &mut String) {
    for chunk in text.decode() {
        match chunk {
            DecodedChunk::Unencoded(text) => line(report, "unencoded", text),
            DecodedChunk::PctDecoded(byte) => line(report, "decoded", byte),
        }
    }
    line(report, "bytes", text.decode().to_bytes());
    line(report, "string", text.decode().to_string());
    line(report, "lossy", text.decode().to_string_lossy());
    for delimiter in ['/', '&', '=', ';'] {
        line(report, "split", text.split(delimiter).collect::<Vec<_>>());
        line(report, "split from the end", text.split(delimiter).rev().collect::<Vec<_>>());
        line(report, "split once", text.split_once(delimiter));
        line(report, "split once at the last", text.rsplit_once(delimiter));
    }
}

fn component_lines<E: Encoder>(name: &str, text: &EStr<E>, report: &mut String) {
    line(report, name, (text, text.as_str(), text.len(), text.is_empty()));
    decoded_lines(text, report);
}

macro_rules! authority_lines {
    ($authority:expr, $report:expr) => {
        if let Some(authority) = $authority {
            line($report, "authority", (authority, authority.as_str()));
            line($report, "userinfo", (authority.userinfo(), authority.has_userinfo()));
            line($report, "host", authority.host());
            line($report, "port", (authority.port(), authority.has_port()));
            let port = authority.port_to_u16().map_err(|error| error.to_string());
            line($report, "number of the port", port);
            match authority.host_parsed() {
                Host::Ipv4(address) => line($report, "IPv4", address),
                Host::Ipv6(address) => line($report, "IPv6", address),
                Host::RegName(name) => component_lines("name", name, $report),
                _ => line($report, "future", ()),
            }
            if let Some(userinfo) = authority.userinfo() {
                decoded_lines(userinfo, $report);
            }
        }
    };
}

macro_rules! built_lines {
    ($builder:expr, $reference:ident, $report:expr) => {{
        let built = $builder
            .optional(Builder::authority, $reference.authority())
            .path($reference.path())
            .optional(Builder::query, $reference.query())
            .optional(Builder::fragment, $reference.fragment())
            .build();
        line($report, "built", built);
        if let Some(authority) = $reference.authority() {
            let name = match authority.host_parsed() {
                Host::RegName(name) => name,
                _ => EStr::EMPTY,
            };
            let built = $builder
                .authority_with(|builder| {
                    builder
                        .optional(Builder::userinfo, authority.userinfo())
                        .host(name)
                        .optional(Builder::port, authority.port())
                })
                .path($reference.path())
                .build();
            line($report, "built with a name", built);
            let port = authority.port_to_u16().ok().flatten().unwrap_or(7);
            let builder = $builder;
            let built = match authority.host_parsed() {
                Host::Ipv4(ip) => builder.authority_with(|b| b.host(ip).port(port)),
                Host::Ipv6(ip) => builder.authority_with(|b| b.host(ip).port(port)),
                _ => builder.authority_with(|b| b.host(EStr::EMPTY).port(port)),
            };
            line($report, "built with an address", built.path($reference.path()).build());
        }
    }};
}

macro_rules! reference_lines {
    ($Kind:ident, $text:expr, $report:expr, $scheme:expr, $builder:expr) => {
        line($report, stringify!($Kind), $Kind::parse($text));
        if let Err(error) = $Kind::parse($text) {
            line($report, "error", (error.to_string(), error.index(), error.kind()));
        }
        if let Ok(reference) = $Kind::parse($text) {
            writeln!($report, "{reference:#?} {reference}").expect("a line");
            let scheme: Option<&Scheme> = $scheme(&reference);
            line($report, "scheme", (scheme, scheme.and_then(Scheme::default_port)));
            let has = (reference.has_authority(), reference.has_query(), reference.has_fragment());
            line($report, "has", has);
            authority_lines!(reference.authority(), &mut *$report);
            let path = reference.path();
            component_lines("path", path, $report);
            let segments = path.segments_if_absolute().map(|them| them.collect::<Vec<_>>());
            line($report, "segments", (path.is_absolute(), path.is_rootless(), segments));
            if let Some(query) = reference.query() {
                component_lines("query", query, $report);
            }
            if let Some(fragment) = reference.fragment() {
                component_lines("fragment", fragment, $report);
            }
            line($report, "normal", reference.normalize());
            let strict = Normalizer::new().allow_path_underflow(false);
            line($report, "normal without underflow", strict.normalize(&reference));
            let ports = Normalizer::new()
                .default_port_with(|scheme| (scheme.as_str() == "ftp").then_some(80));
            line($report, "normal with ports", ports.normalize(&reference));
            line($report, "stripped", reference.strip_fragment());
            let other = EStr::new_or_panic("f/%41");
            line($report, "no fragment", reference.with_fragment(None));
            line($report, "other fragment", reference.with_fragment(Some(other)));
            let mut owned = reference.to_owned();
            owned.set_fragment(Some(other));
            line($report, "owned", (&owned, owned == reference, owned.borrow()));
            owned.set_fragment(None);
            line($report, "order", owned.cmp(&reference.to_owned()));
            line($report, "string", String::from(owned));
            let parsed = $Kind::parse($text.to_string()).expect("a text that parses");
            line($report, "parsed again", (&parsed, parsed == *$text));
            built_lines!($builder(scheme), reference, $report);
        }
    };
}

macro_rules! target_lines {
    ($Base:ident, $Reference:ident, $text:expr, $report:expr) => {
        if let Ok(reference) = $Reference::parse($text) {
            for base in BASES.iter().filter_map(|base| $Base::parse(*base).ok()) {
                let target = reference.resolve_against(&base);
                line($report, "target", target.map_err(|error| error.to_string()));
                let strict = Resolver::with_base(base).allow_path_underflow(false);
                line($report, "target without underflow", strict.resolve(&reference));
            }
        }
        if let Ok(base) = $Base::parse($text) {
            for reference in REFERENCES.iter().filter_map(|it| $Reference::parse(*it).ok()) {
                line($report, "target", reference.resolve_against(&base));
                let base = base.strip_fragment();
                line($report, "target", reference.resolve_against(&base));
                let strict = Resolver::with_base(base).allow_path_underflow(false);
                let target = strict.resolve(&reference).map(|target| target.normalize());
                line($report, "normal target", target);
            }
        }
    };
}

macro_rules! valid_line {
    ($text:expr, $report:expr, $($Encoder:ident)*) => {
        line($report, "valid", [$(EStr::<$Encoder>::new($text).is_some()),*]);
    };
}

fn conversion_lines(text: &str, report: &mut String) {
    if let Ok(iri) = Iri::parse(text) {
        line(report, "as URI", (iri.to_uri(), Uri::try_from(iri).map_err(|it| it.to_string())));
        line(report, "as owned URI", Uri::try_from(iri.to_owned()));
    }
    if let Ok(reference) = IriRef::parse(text) {
        line(report, "as URI reference", (reference.to_uri_ref(), UriRef::try_from(reference)));
        line(report, "with a scheme", (Uri::try_from(reference), Iri::try_from(reference)));
        line(report, "owned URI reference", UriRef::try_from(reference.to_owned()));
        line(report, "owned IRI", Iri::try_from(reference.to_owned()));
    }
    if let Ok(reference) = UriRef::parse(text) {
        line(report, "URI", (Uri::try_from(reference), IriRef::from(reference)));
    }
}

fn encoded_lines(text: &str, report: &mut String) {
    let mut encoded = EString::<IQuery>::new();
    encoded.encode_str::<Data>(text);
    encoded.push('?');
    encoded.encode_str::<IData>(text);
    encoded.encode_str::<IQuery>(text);
    #[allow(deprecated)]
    encoded.encode_bytes::<IData>(&text.as_bytes()[text.len() / 3..]);
    line(report, "encoded", (&encoded, EStr::<Query>::encode_byte(text.len() as u8)));
}

/// Returns what the crate says of a text, in all ways.
pub fn report(text: &str) -> String {
    let mut report = String::new();
    let out = &mut report;
    reference_lines!(Uri, text, out, |it: &Uri<_>| Some(it.scheme()), |scheme: Option<_>| {
        Uri::<String>::builder().scheme(scheme.expect("a scheme"))
    });
    reference_lines!(Iri, text, out, |it: &Iri<_>| Some(it.scheme()), |scheme: Option<_>| {
        Iri::<String>::builder().scheme(scheme.expect("a scheme"))
    });
    reference_lines!(UriRef, text, out, |it: &UriRef<_>| it.scheme(), |scheme| {
        UriRef::<String>::builder().optional(Builder::scheme, scheme)
    });
    reference_lines!(IriRef, text, out, |it: &IriRef<_>| it.scheme(), |scheme| {
        IriRef::<String>::builder().optional(Builder::scheme, scheme)
    });
    target_lines!(Uri, UriRef, text, out);
    target_lines!(Iri, IriRef, text, out);
    conversion_lines(text, out);
    valid_line!(text, out, Userinfo IUserinfo RegName IRegName Port Path IPath Query IQuery
        Fragment IFragment Data IData);
    line(out, "scheme of its own", Scheme::new(text));
    encoded_lines(text, out);
    report
}

/// What a call that panics says.
fn message(call: impl FnOnce() + std::panic::UnwindSafe) -> Option<String> {
    let said = std::panic::catch_unwind(call).err()?;
    let text = said.downcast_ref::<&str>().map(|text| text.to_string());
    text.or_else(|| said.downcast_ref::<String>().cloned())
}

/// What each call that may panic says.
pub fn panics() -> Vec<Option<String>> {
    fn path() -> &'static EStr<Path> {
        EStr::new_or_panic("a")
    }
    vec![
        message(|| drop(EStr::<Path>::new_or_panic("a b"))),
        message(|| drop(EStr::<Port>::new_or_panic("8%30"))),
        message(|| drop(Scheme::new_or_panic(""))),
        message(|| drop(Scheme::new_or_panic("1a"))),
        message(|| drop(Table::new(b"a%"))),
        message(|| drop(Table::new(b"\xff"))),
        message(|| drop(path().split('a'))),
        message(|| drop(path().split('é'))),
        message(|| drop(path().split_once('%'))),
        message(|| drop(path().rsplit_once('-'))),
        message(|| EString::<Path>::new().push('?')),
        message(|| EString::<IPath>::new().push('\u{E000}')),
        message(|| EString::<IQuery>::new().push('\u{E000}')),
        message(|| drop(EString::<Path>::with_capacity(usize::MAX))),
    ]
}
