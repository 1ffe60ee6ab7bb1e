// Included once for each crate, which is `crate_of` here: what does not depend on a text that is
// parsed.
use crate_of::component::{Authority, Scheme};
use crate_of::normalize::Normalizer;
use crate_of::pct_enc::{encoder::*, EStr, EString, Encoder, Table};
use crate_of::resolve::Resolver;
use crate_of::{Iri, IriRef, Uri, UriRef};
use std::panic::catch_unwind;

fn panic_message(call: impl FnOnce() + std::panic::UnwindSafe) -> String {
    let Err(said) = catch_unwind(call) else { return "none".to_string() };
    let text = said.downcast_ref::<&str>().map(|text| text.to_string());
    text.or_else(|| said.downcast_ref::<String>().cloned()).unwrap_or_default()
}

macro_rules! default_lines {
    ($lines:ident: $($Type:ident)*) => {
        $(
            let (value, owned) = ($Type::<&str>::default(), $Type::<String>::default());
            $lines.push(format!("{value:?} {value:#?} {value} {}", owned == value));
            $lines.push(format!("{:?} {:?}", value.scheme(), value.authority().is_none()));
            $lines.push(format!("{:?} {:?}", value.normalize(), value.strip_fragment()));
            let strict = Normalizer::new().allow_path_underflow(false);
            $lines.push(format!("{:?} {:?}", strict.normalize(&value), value.with_fragment(None)));
            let mut owned = value.with_fragment(Some(EStr::new_or_panic("x")));
            owned.set_fragment(Some(EStr::EMPTY));
            $lines.push(format!("{owned:?} {:?}", owned.normalize()));
            owned.set_fragment(None);
            $lines.push(owned.into_string());
            let padded = $Type::parse("a:bc").unwrap();
            $lines.push(format!("[{padded:>10}] [{padded:.2}] [{padded:^9?}]"));
        )*
    };
}

/// Lines of default values, of what is printed, and of what calls on default values say.
pub fn values() -> Vec<String> {
    let mut lines = Vec::new();
    default_lines!(lines: Uri UriRef Iri IriRef);
    let (uri, iri) = (Uri::<&str>::default(), Iri::<&str>::default());
    lines.push(format!("{:?} {:?}", iri.to_uri(), IriRef::<&str>::default().to_uri_ref()));
    lines.push(format!("{:?} {:?}", Uri::try_from(iri), Uri::try_from(UriRef::<&str>::default())));
    lines.push(format!("{:?}", Uri::try_from(IriRef::<&str>::default())));
    lines.push(format!("{:?} {:?}", Iri::<&str>::from(uri), IriRef::<&str>::from(iri)));
    for text in ["", "a", "#a", "//a", "x:y", "?q"] {
        lines.push(panic_message(|| {
            let _ = UriRef::parse(text).unwrap().resolve_against(&Uri::<&str>::default());
        }));
        lines.push(panic_message(|| {
            let resolver = Resolver::with_base(Iri::<String>::default());
            let _ = resolver.resolve(&IriRef::parse(text).unwrap());
        }));
    }
    lines.push(format!("{:?} {}", Authority::<Userinfo, RegName>::EMPTY, Authority::EMPTY));
    lines.push(format!("{:#?}", Resolver::with_base(Uri::parse("a://b").unwrap())));
    table_lines(&mut lines);
    text_lines(&mut lines);
    lines
}

fn table_lines(lines: &mut Vec<String>) {
    for table in [
        Userinfo::TABLE,
        IUserinfo::TABLE,
        RegName::TABLE,
        IRegName::TABLE,
        Port::TABLE,
        Path::TABLE,
        IPath::TABLE,
        Query::TABLE,
        IQuery::TABLE,
        Fragment::TABLE,
        IFragment::TABLE,
        Data::TABLE,
        IData::TABLE,
    ] {
        lines.push(format!("{table:?} {:?}", table.sub(&Table::new(b"/a").or_ucschar())));
        lines.push(format!("{} {}", table.is_subset(IQuery::TABLE), Data::TABLE.is_subset(table)));
        let past_ascii = ['\u{80}', '\u{A0}', '\u{D7FF}', '\u{E000}', '\u{FDD0}', '\u{1FFFE}'];
        lines.push(format!("{:?}", past_ascii.map(|ch| table.allows(ch))));
        lines.push(format!(
            "{:?}",
            ['\u{E0000}', '\u{E1000}', '\u{10FFFD}'].map(|ch| table.allows(ch))
        ));
    }
}

fn text_lines(lines: &mut Vec<String>) {
    let mut decoder = EStr::<IPath>::new_or_panic("é%41b%C3%A9%FFz").decode();
    while decoder.next().is_some() {
        lines.push(format!("{decoder:?} {:?}", decoder.clone().to_bytes()));
        lines.push(format!(
            "{:?} {:?}",
            decoder.clone().to_string(),
            decoder.clone().to_string_lossy()
        ));
    }
    for (one, other) in [("a", "A"), ("a", "b"), ("%2f", "%2F"), ("", "a")] {
        let (one, other) = (EStr::<Path>::new_or_panic(one), EStr::<Path>::new_or_panic(other));
        lines.push(format!("{:?} {}", one.cmp(other), one == other));
    }
    for text in ["", "é", "a+b.c-d1", "+", "a_"] {
        lines.push(format!("{:?}", Scheme::new(text)));
    }
    let owned = EString::from(EStr::<Path>::new_or_panic("a"));
    lines.push(format!("[{owned:>3}] [{owned:?}] [{:<6}]", Scheme::new_or_panic("http")));
    let mut cleared = EString::<Query>::with_capacity(10);
    cleared.push('a');
    cleared.clear();
    lines.push(format!("{} {cleared:?}", cleared.capacity()));
    lines.push(format!(
        "{:?} {:?}",
        "http://a".parse::<Uri<String>>(),
        "a b".parse::<Iri<String>>()
    ));
    let target = Uri::parse("//[v1.a]").map(|_| ());
    lines.push(format!("{target:?} {}", std::mem::size_of::<EString<Path>>()));
    for text in
        ["http://[v1.a]", "http://a:65536", "http://%FF", "http://127.0.0.1:", "http://[::1]:8"]
    {
        let found = Uri::parse(text).unwrap().authority().unwrap().socket_addrs(80);
        lines.push(format!("{:?}", found.map(|all| all.collect::<Vec<_>>())));
    }
}
