//! Rows of conversions, of percent-encoded texts, and of schemes and addresses.

use super::*;

/// The text of a value as another kind.
pub fn converted(ask: &str, kind: &str, text: &str, words: &mut Words) {
    macro_rules! widened {
        ($From:ident $To:ident) => {{
            let value = $From::parse(text).unwrap();
            words.say($To::from(value).as_str());
            words.same("owned", $To::from(value.to_owned()).as_str());
        }};
    }
    macro_rules! narrowed {
        ($From:ident $To:ident) => {{
            let value = $From::parse(text).unwrap();
            let (made, owned) = ($To::try_from(value), $To::try_from(value.to_owned()));
            words.result(made);
            match owned {
                Ok(owned) => words.same("owned", owned.as_str()),
                Err(error) => words.unless(made == Err(error.0) && error.1 == value, "owned"),
            }
        }};
    }
    match (ask, kind) {
        ("to-uri-ref", "uri") => widened!(Uri UriRef),
        ("to-iri", "uri") => widened!(Uri Iri),
        ("to-iri-ref", "uri") => widened!(Uri IriRef),
        ("to-iri-ref", "uri-ref") => widened!(UriRef IriRef),
        ("to-iri-ref", "iri") => widened!(Iri IriRef),
        ("to-uri", "uri-ref") => narrowed!(UriRef Uri),
        ("to-uri", "iri") => narrowed!(Iri Uri),
        ("to-uri", "iri-ref") => narrowed!(IriRef Uri),
        ("to-uri-ref", "iri-ref") => narrowed!(IriRef UriRef),
        ("to-iri", "iri-ref") => narrowed!(IriRef Iri),
        ("encode-as-uri", "iri") => {
            let value = Iri::parse(text).unwrap();
            words.say(value.to_uri().as_str());
            words.same("owned", value.to_owned().to_uri().as_str());
        }
        ("encode-as-uri", "iri-ref") => {
            let value = IriRef::parse(text).unwrap();
            words.say(value.to_uri_ref().as_str());
            words.same("owned", value.to_owned().to_uri_ref().as_str());
        }
        _ => panic!("no such conversion: {ask} {kind}"),
    }
}

/// The body with `$E` as the encoder that a row names.
macro_rules! of_encoder {
    ($name:expr, $E:ident => $body:expr, $($word:literal $Encoder:ident)*) => {
        match $name {
            $($word => { use $Encoder as $E; $body })*
            name => panic!("no such encoder: {name}"),
        }
    };
}

#[allow(deprecated)]
pub fn answer(ask: &str, fields: &[String], words: &mut Words) -> Option<()> {
    let texts: Vec<&str> = fields.iter().map(String::as_str).collect();
    match (ask, texts.as_slice()) {
        ("is-valid", &[encoder, text]) => {
            let is_valid = of_encoder!(encoder, E => EStr::<E>::new(text).is_some(),
                "userinfo" Userinfo "reg-name" RegName "port" Port "path" Path "query" Query
                "fragment" Fragment "ipath" IPath);
            words.say(if is_valid { "yes" } else { "no" });
        }
        ("encode", &[encoder, text]) => of_encoder!(encoder, E => {
            let mut encoded = EString::<E>::new();
            encoded.encode_str::<E>(text);
            words.say(encoded.as_str());
        }, "path" Path "query" Query "data" Data "idata" IData),
        ("encode-bytes", &[encoder, bytes]) => of_encoder!(encoder, E => {
            let bytes = bytes.split(',').map(|byte| u8::from_str_radix(byte, 16).unwrap());
            let mut encoded = EString::<E>::new();
            encoded.encode_bytes::<E>(&bytes.collect::<Vec<_>>());
            words.say(encoded.as_str());
        }, "path" Path "query" Query "data" Data "idata" IData),
        ("table", &[name]) => table(name, words)?,
        ("scheme", &[text]) => words.say(Scheme::new(text).map_or("none", Scheme::as_str)),
        ("same-scheme", &[one, other]) => {
            let (one, other) = (Scheme::new_or_panic(one), Scheme::new_or_panic(other));
            words.say(if one == other { "equal" } else { "different" });
            let hash_of = |scheme: &Scheme| hash_by(|state| scheme.hash(state));
            words.unless((hash_of(one) == hash_of(other)) == (one == other), "by hash");
        }
        ("default-port", &[text]) => {
            let port = Scheme::new_or_panic(text).default_port();
            words.say(&port.map_or("none".to_string(), |port| port.to_string()));
            let upper = text.to_ascii_uppercase();
            words.unless(Scheme::new_or_panic(&upper).default_port() == port, "upper case");
        }
        ("print-ipv4", &[a, b, c, d]) => {
            let [a, b, c, d] = [a, b, c, d].map(|octet| octet.parse().unwrap());
            built_host(Ipv4Addr::new(a, b, c, d).into(), words);
        }
        ("print-ipv6", segments) => {
            let segments: Vec<u16> =
                segments.iter().map(|part| u16::from_str_radix(part, 16).unwrap()).collect();
            let segments: [u16; 8] = segments.try_into().unwrap();
            built_host(Ipv6Addr::from(segments).into(), words);
        }
        (_, &[path]) => of_path(ask, path, words),
        ("split" | "split-once" | "rsplit-once", &[path, delimiter]) => {
            let path = EStr::<IPath>::new_or_panic(path);
            let delimiter = delimiter.chars().next().unwrap();
            let cut = match ask {
                "split-once" => path.split_once(delimiter),
                "rsplit-once" => path.rsplit_once(delimiter),
                _ => {
                    path.split(delimiter).for_each(|piece| words.say(piece.as_str()));
                    return Some(());
                }
            };
            match cut {
                Some((before, after)) => [before, after].map(|piece| words.say(piece.as_str())),
                None => [words.say("none"), ()],
            };
        }
        _ => panic!("no such operation: {ask}"),
    }
    Some(())
}

/// The ASCII characters of an encoder's table, and whether it has octets.
fn table(name: &str, words: &mut Words) -> Option<()> {
    let table = match name {
        "digit" => *Port::TABLE,
        "reg-name" => *RegName::TABLE,
        "userinfo" => *Userinfo::TABLE,
        "path" => *Path::TABLE,
        "query" => *Query::TABLE,
        "fragment" => *Fragment::TABLE,
        _ => return None,
    };
    let characters: String = (0..128).map(char::from).filter(|ch| table.allows(*ch)).collect();
    words.say(&characters);
    words.say(if table.allows_pct_encoded() { "octets" } else { "no-octets" });
    words.unless(!table.allows('é'), "past-ascii");
    Some(())
}

/// The text of an address as the host of a built reference, without brackets.
fn built_host(address: std::net::IpAddr, words: &mut Words) {
    let builder = UriRef::builder().authority_with(|authority| authority.host(address));
    let built = builder.path(EStr::EMPTY).build().unwrap();
    let host = built.authority().unwrap().host();
    words.say(host.trim_start_matches('[').trim_end_matches(']'));
}

/// What a path decodes to, or its segments.
fn of_path(ask: &str, path: &str, words: &mut Words) {
    let path = EStr::<IPath>::new_or_panic(path);
    match ask {
        "to-bytes" => {
            let bytes = path.decode().to_bytes();
            words.is_borrowed(matches!(bytes, Cow::Borrowed(_)));
            words.bytes(&bytes);
        }
        "to-string" => match path.decode().to_string() {
            Ok(text) => {
                words.is_borrowed(matches!(text, Cow::Borrowed(_)));
                words.say(&text);
            }
            Err(bytes) => {
                words.say("not-utf8");
                words.bytes(&bytes);
            }
        },
        "to-string-lossy" => {
            let text = path.decode().to_string_lossy();
            words.is_borrowed(matches!(text, Cow::Borrowed(_)));
            words.say(&text);
        }
        "read" => {
            words.say(IriRef::parse(path.as_str()).unwrap().normalize().as_str());
            let lossy = path.decode().to_string_lossy();
            words.say(if path.decode().to_string().is_ok() { "text" } else { "bytes" });
            words.unless(String::from_utf8_lossy(&path.decode().to_bytes()) == lossy, "otherwise");
            words.say(&lossy);
        }
        "segments" => match path.segments_if_absolute() {
            Some(segments) => segments.for_each(|segment| words.say(segment.as_str())),
            None => words.say("none"),
        },
        _ => panic!("no such operation: {ask}"),
    }
}
