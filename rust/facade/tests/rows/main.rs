//! The library's rows, through this crate: what is asked, and what must be returned.
//!
//! `FLUENT_URI_ROWS` is the folder of the rows' files; its `README.txt` says how a row is written.
//! The expected words come from standards and from the original. Without the variable nothing is
//! run.
#![cfg(all(feature = "std", feature = "net"))]

use fluent_uri::{
    basic::BasicResolver,
    component::{Host, Scheme},
    mend::{Mend, MendError},
    normalize::Normalizer,
    order::NormalOrder,
    pct_enc::{encoder::*, EStr, EString, Encoder},
    relativize::Relativizer,
    resolve::Resolver,
    rules::SchemeRules,
    Iri, IriRef, ParseError, Uri, UriRef,
};
use std::{
    borrow::Cow,
    cell::RefCell,
    collections::BTreeMap,
    env, fs,
    hash::{DefaultHasher, Hash, Hasher},
    net::{Ipv4Addr, Ipv6Addr},
};

/// The words of a result.
#[derive(Default, PartialEq)]
struct Words(Vec<String>);

impl Words {
    fn say(&mut self, word: &str) {
        self.0.push(word.to_string());
    }

    fn all(&mut self, words: &str) {
        self.0.extend(words.split(' ').map(String::from));
    }

    fn named(&mut self, name: &str, text: Option<&str>) {
        self.0.extend(text.map(|text| format!("{name}={text}")));
    }

    /// Says a text that must be the only word of the result.
    fn same(&mut self, name: &str, text: &str) {
        if self.0.is_empty() {
            self.say(text);
        } else if self.0 != [text] {
            self.named(name, Some(text));
        }
    }

    fn unless(&mut self, holds: bool, message: &str) {
        if !holds {
            self.all(message);
        }
    }

    fn result<T: AsRef<str>, E: std::fmt::Debug>(&mut self, result: Result<T, E>) {
        match result {
            Ok(text) => self.say(text.as_ref()),
            Err(error) => self.all(&format!("error {error:?}")),
        }
    }

    fn is_borrowed(&mut self, is_borrowed: bool) {
        self.say(if is_borrowed { "borrowed" } else { "owned" });
    }

    fn bytes(&mut self, bytes: &[u8]) {
        self.0.extend(bytes.iter().map(|byte| format!("{byte:02X}")));
    }

    fn parse_error(&mut self, error: ParseError) {
        self.all(&format!("{:?} {}", error.kind(), error.index()));
    }
}

/// A word of a row without its escapes.
fn unescaped(word: &str) -> String {
    if word == "\"\"" {
        return String::new();
    }
    let mut pieces = word.split('\\');
    let mut text = String::from(pieces.next().unwrap());
    for piece in pieces {
        if let Some(rest) = piece.strip_prefix('s') {
            text.push(' ');
            text.push_str(rest);
            continue;
        }
        let (head, tail) = piece.split_once('{').unwrap();
        let (body, rest) = tail.split_once('}').unwrap();
        match head {
            "u" => text.push(char::from_u32(u32::from_str_radix(body, 16).unwrap()).unwrap()),
            times => text.push_str(&body.repeat(times.parse().unwrap())),
        }
        text.push_str(rest);
    }
    text
}

/// The body with `$R` as the type that a row names.
macro_rules! of_kind {
    ($kind:expr, $R:ident => $body:expr) => {
        match $kind {
            "uri" => {
                use Uri as $R;
                $body
            }
            "uri-ref" => {
                use UriRef as $R;
                $body
            }
            "iri" => {
                use Iri as $R;
                $body
            }
            "iri-ref" => {
                use IriRef as $R;
                $body
            }
            kind => panic!("no such kind: {kind}"),
        }
    };
}

/// The body with the two types that a row names by that of its base.
macro_rules! of_base {
    ($kind:expr, $B:ident $K:ident => $body:expr) => {
        match $kind {
            "uri" => {
                use {Uri as $B, UriRef as $K};
                $body
            }
            "iri" => {
                use {Iri as $B, IriRef as $K};
                $body
            }
            kind => panic!("no such base: {kind}"),
        }
    };
}

thread_local! {
    /// The scheme (or any) and the port of `normalize-under`, `compare-under` and every rule.
    static PORT: RefCell<(String, u16)> = const { RefCell::new((String::new(), 0)) };
}

fn row_port(scheme: &Scheme) -> Option<u16> {
    PORT.with_borrow(|(of, port)| (of == "*" || Some(scheme) == Scheme::new(of)).then_some(*port))
}

fn set_port(scheme: &str, port: &str) {
    PORT.set((scheme.to_string(), port.parse().unwrap()));
}

/// The rules of `normalize-by-every-rule`.
const EVERY_RULE: SchemeRules = SchemeRules {
    default_port: |_| None,
    empty_path_is_root: |_| true,
    default_host_is_localhost: |_| true,
};

/// The scheme, whether the type needs one or not.
trait SchemeText {
    fn scheme_text(&self) -> Option<&str>;
}

macro_rules! scheme_text {
    ($($Ty:ident |$scheme:ident| $text:expr;)*) => {
        $(impl SchemeText for $Ty<&str> {
            fn scheme_text(&self) -> Option<&str> {
                let $scheme = self.scheme();
                $text
            }
        })*
    };
}

scheme_text! {
    Uri |scheme| Some(scheme.as_str());
    UriRef |scheme| scheme.map(Scheme::as_str);
    Iri |scheme| Some(scheme.as_str());
    IriRef |scheme| scheme.map(Scheme::as_str);
}

fn hash_by(hash: impl FnOnce(&mut DefaultHasher)) -> u64 {
    let mut state = DefaultHasher::new();
    hash(&mut state);
    state.finish()
}

/// What a text of a kind leads to.
fn of_value(ask: &str, kind: &str, text: &str, rest: &[String], words: &mut Words) -> Option<()> {
    of_kind!(kind, R => {
        if ask == "mend" {
            match R::mend(text) {
                Ok(made) => words.say(made.as_str()),
                Err(MendError::Unmendable(error)) => words.parse_error(error),
                Err(MendError::OutOfMemory) => panic!("out of memory"),
            }
            return Some(());
        }
        let value = match R::parse(text) {
            Ok(value) => value,
            Err(_) if ask == "ipv6" => {
                words.say("none");
                return Some(());
            }
            Err(error) if ask == "error" => {
                words.parse_error(error);
                let owned = R::parse(text.to_string()).unwrap_err();
                words.unless(owned == (error, text.to_string()), "owned");
                return Some(());
            }
            Err(error) => {
                words.all(&format!("error: {error}"));
                return Some(());
            }
        };
        let owned = value.to_owned();
        match ask {
            "error" => words.say("none"),
            "parse" => {
                words.named("scheme", value.scheme_text());
                words.named("authority", value.authority().map(|part| part.as_str()));
                words.named("path", Some(value.path().as_str()));
                words.named("query", value.query().map(EStr::as_str));
                words.named("fragment", value.fragment().map(EStr::as_str));
                words.unless(value == text, "of another text");
            }
            "normalize" | "normalize-strict" | "normalize-under" => {
                if let [scheme, port] = rest {
                    set_port(scheme, port);
                }
                let mut normalizer = Normalizer::new().allow_path_underflow(ask != "normalize-strict");
                if ask == "normalize-under" {
                    normalizer = normalizer.default_port_with(row_port);
                }
                let normal = normalizer.normalize(&value);
                let again = normal.clone().map(|normal| normalizer.normalize(&normal).unwrap());
                words.result(normal);
                again.into_iter().for_each(|again| words.same("again", again.as_str()));
            }
            "normalize-by-rules" | "normalize-by-rules-strict" => {
                let strict = ask == "normalize-by-rules-strict";
                let normalizer = Normalizer::new().scheme_rules_with(SchemeRules::STANDARD);
                words.result(normalizer.allow_path_underflow(!strict).normalize(&value));
            }
            "normalize-by-every-rule" => {
                set_port("*", "80");
                let normalizer = Normalizer::new().scheme_rules_with(EVERY_RULE);
                words.result(normalizer.default_port_with(row_port).normalize(&value));
            }
            "is-normal" | "is-normal-by-rules" => {
                let rules = match ask {
                    "is-normal" => SchemeRules::DEFAULT_PORTS,
                    _ => SchemeRules::STANDARD,
                };
                let is_normal = NormalOrder::new().scheme_rules_with(rules).is_normal(&value);
                words.say(if is_normal { "yes" } else { "no" });
            }
            "strip-fragment" => {
                words.say(value.strip_fragment().as_str());
                words.same("owned", owned.strip_fragment().as_str());
            }
            "with-fragment" => {
                let fragment = rest[0].strip_prefix('#').map(EStr::new_or_panic);
                words.say(value.with_fragment(fragment).as_str());
                let mut owned = owned;
                owned.set_fragment(fragment);
                words.same("set", owned.as_str());
                words.unless(owned.fragment() == fragment, "but not the fragment");
            }
            _ => return of_authority(ask, value.authority().unwrap(), words),
        }
        Some(())
    })
}

/// What an authority leads to. A name is not looked up.
fn of_authority<U: Encoder, R: Encoder>(
    ask: &str,
    authority: fluent_uri::component::Authority<'_, U, R>,
    words: &mut Words,
) -> Option<()> {
    match (ask, authority.host_parsed()) {
        ("authority", _) => {
            words.named("userinfo", authority.userinfo().map(EStr::as_str));
            words.named("host", Some(authority.host()));
            words.named("port", authority.port().map(EStr::as_str));
            words.unless(authority.has_userinfo() == authority.userinfo().is_some(), "userinfo");
            words.unless(authority.has_port() == authority.port().is_some(), "port");
        }
        ("port", _) => words.say(&match authority.port_to_u16() {
            Ok(port) => port.map_or("none".to_string(), |port| port.to_string()),
            Err(_) => "error".to_string(),
        }),
        ("host", Host::Ipv4(address)) => {
            let [a, b, c, d] = address.octets();
            words.all(&format!("ipv4 {a} {b} {c} {d}"));
        }
        ("host" | "ipv6", Host::Ipv6(address)) => {
            words.say("ipv6");
            words.0.extend(address.segments().map(|segment| format!("{segment:x}")));
        }
        ("host", Host::RegName(name)) => words.0.extend(["name", name.as_str()].map(String::from)),
        ("host", _) => words.say("ipvfuture"),
        ("ipv6", _) => words.say("none"),
        ("socket", host) => match authority.socket_addrs(80) {
            Err(error) if error.kind() == std::io::ErrorKind::InvalidInput => {
                words.say(match error.to_string().as_str() {
                    "invalid port value" => "InvalidPort",
                    "address mechanism not supported" => "UnsupportedMechanism",
                    _ => "NameNotUtf8",
                });
            }
            Ok(mut found) if !matches!(host, Host::RegName(_)) => {
                let found = found.next().unwrap();
                let version = if found.is_ipv4() { "V4" } else { "V6" };
                words.all(&format!("{version} {} {}", found.ip(), found.port()));
            }
            _ => return None,
        },
        _ => panic!("no such operation: {ask}"),
    }
    Some(())
}

mod encoded;
mod pairs;

/// What a row asks leads to, or `None` where this crate has no such call.
fn answer(ask: &str, fields: &[String], words: &mut Words) -> Option<()> {
    match (ask, fields) {
        ("ascii-host", _) => None,
        ("to-uri" | "to-uri-ref" | "to-iri" | "to-iri-ref" | "encode-as-uri", [kind, text]) => {
            encoded::converted(ask, kind, text, words);
            Some(())
        }
        (_, [kind, one, rest @ ..])
            if matches!(kind.as_str(), "uri" | "uri-ref" | "iri" | "iri-ref") =>
        {
            let is_pair = ["compare", "resolve", "swap", "relativize"];
            if is_pair.iter().any(|name| ask.starts_with(name)) {
                pairs::of_pair(ask, kind, one, &rest[0], &rest[1..], words);
                return Some(());
            }
            of_value(ask, kind, one, rest, words)
        }
        _ => encoded::answer(ask, fields, words),
    }
}

#[test]
fn rows() {
    let Some(folder) = env::var_os("FLUENT_URI_ROWS") else { return };
    let (mut said, mut failed, mut unsaid) = (BTreeMap::new(), 0, BTreeMap::new());
    for file in fs::read_dir(folder).unwrap().map(|entry| entry.unwrap().path()) {
        if file.file_name().unwrap() == "README.txt" {
            continue;
        }
        let text = fs::read_to_string(&file).unwrap();
        for row in text.lines().filter(|row| !row.trim().is_empty() && !row.starts_with('#')) {
            let (asked, wanted) = row.split_once(" -> ").unwrap();
            let texts = |words: &str| words.split_whitespace().map(unescaped).collect::<Vec<_>>();
            let fields = texts(asked);
            let mut words = Words::default();
            if answer(&fields[0], &fields[1..], &mut words).is_none() {
                *unsaid.entry(fields[0].clone()).or_insert(0) += 1;
                continue;
            }
            *said.entry(fields[0].clone()).or_insert(0) += 1;
            if words.0 != texts(wanted) {
                failed += 1;
                eprintln!("{}: {row}\n    got {:?}", file.display(), words.0);
            }
        }
    }
    println!("said {said:?}, unsaid {unsaid:?}");
    assert_eq!(failed, 0, "rows that differ");
    assert!(said.values().sum::<usize>() > 6000 && said.len() >= 45, "too few rows");
    assert!(unsaid.keys().all(|ask| ["ascii-host", "socket", "table"].contains(&ask.as_str())));
}
