//! The order of normal forms, without making them (RFC 3986, section 6.2).

use crate::{
    component::Scheme, engine::reference, proved::uri_order as engine, reference::RiMaybeRef,
    rules::SchemeRules,
};
use borrow_or_share::Bos;
use core::{cmp::Ordering, hash::Hasher};

/// Compares values by their normal forms (RFC 3986, sections 6.2.2 and 6.2.3), which it does not
/// make: no call allocates. Its setting is the rules of schemes.
///
/// The normal forms are those of a [`Normalizer`](crate::normalize::Normalizer) with the same
/// rules.
///
/// # Examples
///
/// ```
/// use fluent_uri::{order::NormalOrder, rules::SchemeRules, Uri};
///
/// let (one, other) = (Uri::parse("HTTP://a:80")?, Uri::parse("http://a/")?);
/// let order = NormalOrder::new();
/// assert!(!order.is_equivalent(&one, &other));
/// assert!(order.scheme_rules_with(SchemeRules::STANDARD).is_equivalent(&one, &other));
/// # Ok::<_, fluent_uri::ParseError>(())
/// ```
#[allow(missing_debug_implementations)]
#[derive(Clone, Copy)]
pub struct NormalOrder {
    rules: SchemeRules,
}

impl NormalOrder {
    /// Returns the order under [`SchemeRules::DEFAULT_PORTS`].
    #[must_use]
    pub fn new() -> Self {
        Self { rules: SchemeRules::DEFAULT_PORTS }
    }

    /// Sets the rules of schemes.
    #[must_use]
    pub fn scheme_rules_with(self, rules: SchemeRules) -> Self {
        Self { rules }
    }

    /// Sets the default ports of schemes. For equal schemes the function must return the same port.
    #[must_use]
    pub fn default_port_with(mut self, f: fn(&Scheme) -> Option<u16>) -> Self {
        self.rules.default_port = f;
        self
    }

    fn inner(&self) -> engine::NormalOrder<SchemeRules> {
        engine::NormalOrder::new().scheme_rules_with(self.rules)
    }

    /// Returns whether two values have the same normal form, and so are equivalent.
    ///
    /// # Examples
    ///
    /// ```
    /// use fluent_uri::{order::NormalOrder, Uri};
    ///
    /// let order = NormalOrder::new();
    /// assert!(order.is_equivalent(&Uri::parse("http://a/~")?, &Uri::parse("HTTP://a:80/%7E")?));
    /// # Ok::<_, fluent_uri::ParseError>(())
    /// ```
    pub fn is_equivalent<R, U>(&self, one: &R, other: &R::WithVal<U>) -> bool
    where
        R: RiMaybeRef<Val: Bos<str>>,
        U: Bos<str>,
    {
        let ((one, one_at), (other, other_at)) = (one.parts(), other.parts());
        let one = reference::<R::Kind>(one, one_at);
        self.inner().is_equivalent(&one, &reference::<R::Kind>(other, other_at))
    }

    /// Returns whether a value is its own normal form, so that normalising changes nothing.
    ///
    /// # Examples
    ///
    /// ```
    /// use fluent_uri::{order::NormalOrder, Uri};
    ///
    /// assert!(NormalOrder::new().is_normal(&Uri::parse("http://a/~")?));
    /// assert!(!NormalOrder::new().is_normal(&Uri::parse("HTTP://a:80/%7E")?));
    /// # Ok::<_, fluent_uri::ParseError>(())
    /// ```
    pub fn is_normal<R>(&self, value: &R) -> bool
    where
        R: RiMaybeRef<Val: Bos<str>>,
    {
        let (text, at) = value.parts();
        self.inner().is_normal(&reference::<R::Kind>(text, at))
    }

    /// Returns the order of the normal forms of two values, byte by byte.
    ///
    /// # Examples
    ///
    /// ```
    /// use fluent_uri::{order::NormalOrder, Uri};
    ///
    /// let order = NormalOrder::new();
    /// assert!(order.cmp(&Uri::parse("HTTP://a:80/%7E")?, &Uri::parse("http://b")?).is_lt());
    /// # Ok::<_, fluent_uri::ParseError>(())
    /// ```
    pub fn cmp<R, U>(&self, one: &R, other: &R::WithVal<U>) -> Ordering
    where
        R: RiMaybeRef<Val: Bos<str>>,
        U: Bos<str>,
    {
        let ((one, one_at), (other, other_at)) = (one.parts(), other.parts());
        let one = reference::<R::Kind>(one, one_at);
        self.inner().cmp(&one, &reference::<R::Kind>(other, other_at))
    }

    /// Hashes the normal form of a value, so that equivalent values have equal hashes. A normal
    /// form of fewer than 1,024 bytes is hashed as its text is.
    ///
    /// # Examples
    ///
    /// ```
    /// use fluent_uri::{order::NormalOrder, Uri};
    /// use std::hash::{DefaultHasher, Hasher};
    ///
    /// let hash_of = |text: &'static str| {
    ///     let mut hasher = DefaultHasher::new();
    ///     NormalOrder::new().hash(&Uri::parse(text).unwrap(), &mut hasher);
    ///     hasher.finish()
    /// };
    /// assert_eq!(hash_of("http://a/~"), hash_of("HTTP://a:80/%7E"));
    /// ```
    pub fn hash<R, H>(&self, value: &R, state: &mut H)
    where
        R: RiMaybeRef<Val: Bos<str>>,
        H: Hasher,
    {
        let (text, at) = value.parts();
        self.inner().hash(&reference::<R::Kind>(text, at), state);
    }
}

impl Default for NormalOrder {
    fn default() -> Self {
        Self::new()
    }
}
