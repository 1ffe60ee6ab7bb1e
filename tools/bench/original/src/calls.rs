//! The calls that are counted: none is inlined, and each returns its whole result.
use fluent_uri::pct_enc::encoder::{Data, IPath, Path};
use fluent_uri::pct_enc::{EStr, EString};
use fluent_uri::{Iri, IriRef, ParseError, Uri, UriRef};
use std::borrow::Cow;
use std::collections::BTreeMap;

#[inline(never)]
pub fn parse_uri(text: &str) -> Result<Uri<&str>, ParseError> {
    Uri::parse(text)
}

#[inline(never)]
pub fn parse_uri_ref(text: &str) -> Result<UriRef<&str>, ParseError> {
    UriRef::parse(text)
}

#[inline(never)]
pub fn parse_iri(text: &str) -> Result<Iri<&str>, ParseError> {
    Iri::parse(text)
}

#[inline(never)]
pub fn parse_iri_ref(text: &str) -> Result<IriRef<&str>, ParseError> {
    IriRef::parse(text)
}

#[inline(never)]
pub fn normalize_uri(text: &str) -> Option<Uri<String>> {
    Some(Uri::parse(text).ok()?.normalize())
}

#[inline(never)]
pub fn normalize_uri_ref(text: &str) -> Option<UriRef<String>> {
    Some(UriRef::parse(text).ok()?.normalize())
}

#[inline(never)]
pub fn normalize_iri(text: &str) -> Option<Iri<String>> {
    Some(Iri::parse(text).ok()?.normalize())
}

#[inline(never)]
pub fn normalize_iri_ref(text: &str) -> Option<IriRef<String>> {
    Some(IriRef::parse(text).ok()?.normalize())
}

#[inline(never)]
pub fn resolve_uri(base: &str, reference: &str) -> Option<Uri<String>> {
    let base = Uri::parse(base).ok()?;
    let reference = UriRef::parse(reference).ok()?;
    reference.resolve_against(&base).ok()
}

#[inline(never)]
pub fn resolve_iri(base: &str, reference: &str) -> Option<Iri<String>> {
    let base = Iri::parse(base).ok()?;
    let reference = IriRef::parse(reference).ok()?;
    reference.resolve_against(&base).ok()
}

#[inline(never)]
pub fn resolve_values(base: Uri<&str>, reference: UriRef<&str>) -> Option<Uri<String>> {
    reference.resolve_against(&base).ok()
}

/// The original has no one call for it.
#[inline(never)]
pub fn resolve_normalized(base: &str, reference: &str) -> Option<Uri<String>> {
    Some(resolve_uri(base, reference)?.normalize())
}

#[inline(never)]
pub fn decode(path: &EStr<IPath>) -> Option<Cow<'_, str>> {
    path.decode().to_string().ok()
}

#[inline(never)]
pub fn encode(text: &str) -> Option<EString<Path>> {
    let mut path = EString::<Path>::new();
    path.encode_str::<Data>(text);
    Some(path)
}

#[inline(never)]
pub fn to_uri(text: &str) -> Option<Uri<String>> {
    Some(Iri::parse(text).ok()?.to_uri())
}

/// The URI put together from its own components, each of which it has.
#[inline(never)]
pub fn build(parts: Uri<&str>) -> Option<Uri<String>> {
    Uri::builder()
        .scheme(parts.scheme())
        .authority(parts.authority()?)
        .path(parts.path())
        .query(parts.query()?)
        .fragment(parts.fragment()?)
        .build()
        .ok()
}

/// The normal forms of the targets that were noted, and their places.
#[derive(Default)]
pub struct Register {
    pub targets: Vec<Uri<String>>,
    places: BTreeMap<String, usize>,
}

/// The place of the reference's target, which is noted where it is new: the original has no one
/// call for it.
#[inline(never)]
pub fn note(register: &mut Register, base: &Uri<&str>, reference: &str) -> Option<usize> {
    let reference = UriRef::parse(reference).ok()?;
    let target = reference.resolve_against(base).ok()?.normalize();
    if let Some(place) = register.places.get(target.as_str()) {
        return Some(*place);
    }
    let place = register.targets.len();
    register.places.insert(target.as_str().to_owned(), place);
    register.targets.push(target);
    Some(place)
}
