//! The calls that may not abort, with each request for memory denied in turn.
#![cfg(feature = "std")]

use fluent_uri::{
    basic::BasicResolver,
    build::Builder,
    component::Scheme,
    fallible::AllocError,
    mend::{try_trim_link, Mend, MendError},
    normalize::Normalizer,
    order::NormalOrder,
    pct_enc::{
        encoder::{Data, Path, Query},
        EStr, EString,
    },
    query::{next_pair, try_pairs_of, try_query_of},
    relativize::Relativizer,
    resolve::Resolver,
    rules::SchemeRules,
    Iri, IriRef, Uri, UriRef,
};
use std::{
    alloc::{GlobalAlloc, Layout, System},
    cell::Cell,
    fmt::Debug,
    ptr,
};

thread_local! {
    /// How many requests of this thread are granted before the next is denied.
    static GRANTED: Cell<usize> = const { Cell::new(usize::MAX) };
}

struct Denying;

// SAFETY: each call is one of `System`, or denies a request, which the trait allows.
unsafe impl GlobalAlloc for Denying {
    unsafe fn alloc(&self, layout: Layout) -> *mut u8 {
        match GRANTED.get() {
            0 => ptr::null_mut(),
            usize::MAX => unsafe { System.alloc(layout) },
            left => {
                GRANTED.set(left - 1);
                unsafe { System.alloc(layout) }
            }
        }
    }

    unsafe fn dealloc(&self, memory: *mut u8, layout: Layout) {
        unsafe { System.dealloc(memory, layout) };
    }
}

#[global_allocator]
static ALLOCATOR: Denying = Denying;

/// Runs a call with so many requests granted.
fn granted<T>(count: usize, call: impl FnOnce() -> T) -> T {
    GRANTED.set(count);
    let result = call();
    GRANTED.set(usize::MAX);
    result
}

/// Denies each request of a call in turn. A denial is an error for want of memory, and with none
/// the result is the expected text.
fn deny<T: AsRef<str>, E: Debug>(expected: &str, call: impl Fn() -> Result<T, E>) {
    for count in 0..100 {
        match granted(count, &call) {
            Ok(text) => {
                assert!(count > 0, "no memory was requested for {expected}");
                return assert_eq!(text.as_ref(), expected);
            }
            Err(error) => {
                let error = format!("{error:?}");
                assert!(error.contains("OutOfMemory") || error.contains("AllocError"), "{error}");
            }
        }
    }
    panic!("too many requests for {expected}");
}

#[test]
fn references() {
    let uri = Uri::parse("HTTP://A:80/%7e#f").unwrap();
    let iri = Iri::parse("http://a/é?ü").unwrap();
    let reference = UriRef::parse("../b").unwrap();
    let fragment = Some(EStr::new_or_panic("other"));
    deny("HTTP://A:80/%7e#f", || uri.try_to_owned());
    deny("http://a/~#f", || uri.try_normalize());
    deny("http://a/~#f", || Normalizer::new().try_normalize(&uri));
    let ruled = Normalizer::new().scheme_rules_with(SchemeRules::STANDARD);
    deny("http://a/~#f", || ruled.try_normalize(&uri));
    deny("HTTP://A:80/%7e#other", || uri.try_with_fragment(fragment));
    deny("http://a/%C3%A9?%C3%BC", || iri.try_to_uri());
    deny("%C3%A9", || IriRef::parse("é").unwrap().try_to_uri_ref());
    let base = Uri::parse("http://a/b/c").unwrap();
    deny("http://a/b", || reference.try_resolve_against(&base));
    deny("http://a/b", || Resolver::with_base(base).try_resolve(&reference));
    deny("http://a/b", || {
        Resolver::with_base(base).try_resolve_normalized(&reference, &ruled)
    });
    deny("http://a/b", || BasicResolver::with_base(base).resolve(&reference));
    let target = Uri::parse("http://a/x").unwrap();
    deny("/x", || Relativizer::with_base(base).try_relativize(&target));
    deny("http:a?b", || {
        let builder = Uri::builder().scheme(Scheme::new_or_panic("http"));
        let query = Some(EStr::new_or_panic("b"));
        builder.path(EStr::new_or_panic("a")).optional(Builder::query, query).try_build()
    });
}

#[test]
fn texts_stay_as_they_were() {
    let mut uri = Uri::parse("http://a/#f").unwrap().to_owned();
    let long = format!("f{}", "%20".repeat(100));
    let fragment = EStr::new(long.as_str());
    assert!(granted(0, || uri.try_set_fragment(fragment)).is_err());
    assert_eq!(uri, "http://a/#f");
    granted(0, || uri.try_set_fragment(None)).unwrap();
    assert_eq!(uri, "http://a/");

    let mut query = EString::<Query>::new();
    query.encode_str::<Data>("a&");
    assert!(granted(0, || query.try_encode_str::<Data>(&long)).is_err());
    assert!(granted(0, || query.try_push_estr(EStr::new_or_panic(&long))).is_err());
    assert_eq!(query, "a%26");

    let text = String::from("a b");
    let (error, text) = granted(0, || UriRef::mend_owned(text)).unwrap_err();
    assert!(matches!(error, MendError::OutOfMemory));
    assert_eq!(text, "a b");
}

#[test]
fn decoding_mending_and_pairs() {
    let text = EStr::<Path>::new_or_panic("a%20b");
    deny("a%20b", || text.try_to_owned());
    deny("a b", || {
        let bytes = text.decode().try_to_bytes()?;
        Ok::<_, AllocError>(if *bytes == *b"a b" { "a b" } else { "other bytes" })
    });
    deny("a b", || text.decode().try_to_string());
    deny("a b", || text.decode().try_to_string_lossy());
    deny("a%20b", || UriRef::mend("a b"));
    deny("a%20b", || UriRef::mend_link(" a\n b"));
    deny("a b", || try_trim_link(" a\n b"));
    let query = EStr::<Query>::new_or_panic("a=1&b%26=2");
    deny("b&", || try_pairs_of(query).map(|mut pairs| pairs.pop().unwrap().name));
    let pairs = try_pairs_of(query).unwrap();
    deny("a=1&b%26=2", || try_query_of(&pairs));
}

#[test]
fn nothing_is_requested() {
    let query = EStr::<Query>::new_or_panic("a=1&b");
    let (one, other) = ("HTTP://u@A:80/%7e?b#c", "http://u@a/~?b#c");
    granted(0, || {
        let (one, other) = (Iri::parse(one).unwrap(), Iri::parse(other).unwrap());
        assert!(NormalOrder::new().is_equivalent(&one, &other));
        assert!(NormalOrder::new().cmp(&one, &other).is_eq());
        assert!(!NormalOrder::new().is_normal(&one));
        let order = NormalOrder::new().scheme_rules_with(SchemeRules::STANDARD);
        assert!(order.is_equivalent(&one, &other));
        assert_eq!(one.authority().unwrap().port_to_u16(), Ok(Some(80)));
        assert_eq!(one.strip_fragment().query().unwrap(), "b");
        assert_eq!(next_pair(query, 3).unwrap().end, 5);
        assert!(query.decode().try_to_string().is_ok());
        assert!(UriRef::try_from(IriRef::from(one)).is_ok());
    });
}
