//! What outlives what: a component borrows the text, or the owned value, and an address nothing.
#![cfg(feature = "std")]

use fluent_uri::{component::Scheme, pct_enc::EStr, Iri, Uri};

#[test]
fn components_outlive_a_borrowed_value() {
    let (scheme, userinfo, path) = {
        let uri = Uri::parse("http://u@a/b").unwrap();
        (uri.scheme(), uri.authority().unwrap().userinfo().unwrap(), uri.path())
    };
    assert_eq!(scheme, Scheme::new_or_panic("http"));
    assert_eq!((userinfo.as_str(), path.as_str()), ("u", "/b"));
}

#[test]
fn components_of_an_owned_value_borrow_it() {
    let iri = Iri::parse(String::from("http://a/é?q#f")).unwrap();
    let (path, stripped) = (iri.path(), iri.strip_fragment());
    assert_eq!((path.as_str(), stripped.as_str()), ("/é", "http://a/é?q"));
    let borrowed = iri.borrow();
    assert_eq!(borrowed.query(), Some(EStr::new_or_panic("q")));
}

#[cfg(feature = "net")]
#[test]
fn addresses_outlive_everything() {
    let mut addresses = {
        let uri = Uri::parse(String::from("http://127.0.0.1:81")).unwrap();
        uri.authority().unwrap().socket_addrs(80).unwrap()
    };
    assert_eq!(addresses.next().unwrap().to_string(), "127.0.0.1:81");
}

#[test]
fn values_are_sent_and_shared() {
    fn is_sent<T: Send + Sync + Unpin + 'static>(_: &T) {}
    is_sent(&Uri::parse("http://a").unwrap());
    is_sent(&Uri::parse("http://a").unwrap().to_owned());
}
