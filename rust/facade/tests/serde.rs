//! The four types as strings of serde's formats.
#![cfg(all(feature = "serde", feature = "alloc"))]

use fluent_uri::{Iri, IriRef, Uri, UriRef};
use serde::{
    de::value::{BorrowedStrDeserializer, Error, StringDeserializer},
    Deserialize, Serialize,
};
use std::fmt;

/// A value as a formatter, which is a format of serde, writes it.
struct Written<T>(T);

impl<T: Serialize> fmt::Display for Written<T> {
    fn fmt(&self, f: &mut fmt::Formatter<'_>) -> fmt::Result {
        self.0.serialize(f)
    }
}

fn borrowed<'de, T: Deserialize<'de>>(text: &'de str) -> Result<T, Error> {
    T::deserialize(BorrowedStrDeserializer::new(text))
}

fn owned<T: for<'de> Deserialize<'de>>(text: &str) -> Result<T, Error> {
    T::deserialize(StringDeserializer::new(text.to_string()))
}

macro_rules! reads_what_it_writes {
    ($Kind:ident, $text:literal) => {
        assert_eq!(Written($Kind::parse($text).unwrap()).to_string(), $text);
        assert_eq!(borrowed::<$Kind<&str>>($text).unwrap(), $text);
        assert_eq!(owned::<$Kind<String>>($text).unwrap(), $text);
        assert!(borrowed::<$Kind<&str>>("http://a/%2").is_err());
        assert!(owned::<$Kind<String>>("http://a/%2").is_err());
    };
}

#[test]
fn texts() {
    reads_what_it_writes!(Uri, "http://a/%C3%A9?b#c");
    reads_what_it_writes!(UriRef, "../a");
    reads_what_it_writes!(Iri, "http://é/ü");
    reads_what_it_writes!(IriRef, "ü");
    assert!(owned::<Uri<String>>("../a").is_err());
    assert!(owned::<Uri<String>>("http://é/").is_err());
}
