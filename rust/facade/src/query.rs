//! The pairs of a query, as `name=value&name=value` (RFC 3986, sections 2.1 and 3.4).

use crate::{
    engine::made,
    fallible::AllocError,
    pct_enc::{encoder::Query, EStr, EString, Encoder},
    proved::{
        rstd::{self, alloc::Global},
        uri_query as engine,
    },
};
use alloc::{string::String, vec::Vec};

pub use crate::proved::uri_query::PairPlace;

/// A name with its value, decoded.
///
/// # Examples
///
/// ```
/// use fluent_uri::query::Pair;
///
/// let pair = Pair { name: "q".into(), value: "a&b".into() };
/// assert_eq!(pair.value, "a&b");
/// ```
#[derive(Clone, Debug, Default, Eq, Hash, Ord, PartialEq, PartialOrd)]
pub struct Pair {
    /// What is before the first `=`.
    pub name: String,
    /// What is after the first `=`, or empty without one.
    pub value: String,
}

/// Returns the pairs of a query. Each substring between its
/// `&` that is not empty is cut at its first `=`, and both halves are decoded. Bytes that are not
/// UTF-8 become U+FFFD, and `+` is not a space.
///
/// It compiles only if `E::TABLE` allows percent-encoded octets.
///
/// # Examples
///
/// ```
/// use fluent_uri::{query::pairs_of, UriRef};
///
/// let pairs = pairs_of(UriRef::parse("?name=ferret&page=2%263")?.query().unwrap());
/// assert_eq!((pairs[1].name.as_str(), pairs[1].value.as_str()), ("page", "2&3"));
/// # Ok::<_, fluent_uri::ParseError>(())
/// ```
#[must_use]
pub fn pairs_of<E: Encoder>(query: &EStr<E>) -> Vec<Pair> {
    made(try_pairs_of(query))
}

/// Returns what [`pairs_of`] does, or an error if allocation fails.
///
/// # Errors
///
/// Returns an error only if allocation fails.
pub fn try_pairs_of<E: Encoder>(query: &EStr<E>) -> Result<Vec<Pair>, AllocError> {
    let pairs = engine::pairs_of(Global, query.with_octets())?.0;
    let mut made = Vec::new();
    made.try_reserve_exact(pairs.len()).map_err(|_| AllocError)?;
    made.extend(pairs.into_iter().map(|pair| Pair { name: pair.name.0, value: pair.value.0 }));
    Ok(made)
}

/// Returns the query of the pairs: `name=value`, joined by `&`. Each name and value is data, in
/// which reserved characters are percent-encoded (RFC 3986, section 2.4). So [`pairs_of`] returns
/// the same pairs again.
///
/// # Examples
///
/// ```
/// use fluent_uri::query::{query_of, Pair};
///
/// let pairs = [Pair { name: "a&b".into(), value: "=".into() }];
/// assert_eq!(query_of(&pairs), "a%26b=%3D");
/// ```
#[must_use]
pub fn query_of(pairs: &[Pair]) -> EString<Query> {
    made(try_query_of(pairs))
}

/// Returns what [`query_of`] does, or an error if allocation fails.
///
/// # Errors
///
/// Returns an error only if allocation fails.
pub fn try_query_of(pairs: &[Pair]) -> Result<EString<Query>, AllocError> {
    let mut copies = rstd::Vec::with_capacity(Global, pairs.len())?;
    for pair in pairs {
        copies.push(engine::Pair {
            name: rstd::String::from_str(Global, &pair.name)?,
            value: rstd::String::from_str(Global, &pair.value)?,
        })?;
    }
    let query = engine::query_of(Global, copies.as_slice())?;
    Ok(EString::of_valid(query.into_string().0))
}

/// Returns where the next pair of a query is, from a position on, and allocates nothing: the first
/// substring between its `&` that is not empty, cut at its first `=`.
///
/// # Panics
///
/// Panics if the position is more than the length of the query. Pass 0, or the `end` of the pair
/// before.
///
/// # Examples
///
/// ```
/// use fluent_uri::{pct_enc::{encoder::Query, EStr}, query::next_pair};
///
/// let query = EStr::<Query>::new_or_panic("a=1&&b");
/// let first = next_pair(query, 0).unwrap();
/// assert_eq!((first.start, first.name_end, first.end), (0, 1, 3));
/// let second = next_pair(query, first.end).unwrap();
/// assert_eq!((second.start, second.name_end, second.end), (5, 6, 6));
/// ```
#[must_use]
pub fn next_pair<E: Encoder>(query: &EStr<E>, from: usize) -> Option<PairPlace> {
    assert!(from <= query.len(), "position past the end of the query");
    engine::next_pair(query.as_str().as_bytes(), from)
}
