//! Resolving references against a base (RFC 3986, section 5).

use crate::{
    engine::{self, out_of_memory},
    normalize::Normalizer,
    proved::uri_ops::resolve::ResolveError as EngineError,
    reference::{Ri, RiMaybeRef},
};
use alloc::string::String;
use borrow_or_share::Bos;
use core::fmt;

/// Why a reference was not resolved.
///
/// # Examples
///
/// ```
/// use fluent_uri::{resolve::ResolveError, Uri, UriRef};
///
/// let error = UriRef::parse("a")?.resolve_against(&Uri::parse("http://b/#c")?).unwrap_err();
/// assert_eq!(error, ResolveError::BaseWithFragment);
/// # Ok::<_, fluent_uri::ParseError>(())
/// ```
#[derive(Clone, Copy, Debug, Eq, PartialEq)]
pub enum ResolveError {
    /// The base has a fragment.
    BaseWithFragment,
    /// The base has no authority, and its path does not begin with
    /// `/`. The reference has no scheme, is not empty and does not begin with `#`.
    InvalidReferenceAgainstOpaqueBase,
    /// A double dot had no segment left to remove, and the resolver does not allow this.
    PathUnderflow,
}

impl From<ResolveError> for EngineError {
    fn from(error: ResolveError) -> Self {
        match error {
            ResolveError::BaseWithFragment => Self::BaseWithFragment,
            ResolveError::InvalidReferenceAgainstOpaqueBase => {
                Self::InvalidReferenceAgainstOpaqueBase
            }
            ResolveError::PathUnderflow => Self::PathUnderflow,
        }
    }
}

/// Returns the engine's error as one of this crate, or aborts.
pub(crate) fn outer(error: EngineError) -> ResolveError {
    match error {
        EngineError::BaseWithFragment => ResolveError::BaseWithFragment,
        EngineError::InvalidReferenceAgainstOpaqueBase => {
            ResolveError::InvalidReferenceAgainstOpaqueBase
        }
        EngineError::PathUnderflow => ResolveError::PathUnderflow,
        EngineError::OutOfMemory => out_of_memory(),
    }
}

impl fmt::Display for ResolveError {
    fn fmt(&self, f: &mut fmt::Formatter<'_>) -> fmt::Result {
        fmt::Display::fmt(&EngineError::from(*self), f)
    }
}

#[cfg(feature = "impl-error")]
impl core::error::Error for ResolveError {}

/// What resolves references against a base, by its setting: whether dot segments may underflow.
///
/// # Examples
///
/// ```
/// use fluent_uri::{resolve::Resolver, Uri, UriRef};
///
/// let resolver = Resolver::with_base(Uri::parse("http://a/b/c/d;p?q")?);
/// assert_eq!(resolver.resolve(&UriRef::parse("g?y")?).unwrap(), "http://a/b/c/g?y");
/// assert_eq!(resolver.resolve(&UriRef::parse("../../g")?).unwrap(), "http://a/g");
/// # Ok::<_, fluent_uri::ParseError>(())
/// ```
#[derive(Clone, Copy, Debug)]
#[must_use]
pub struct Resolver<R> {
    base: R,
    allow_path_underflow: bool,
}

impl<R: Ri> Resolver<R>
where
    R::Val: Bos<str>,
{
    /// Returns a resolver against this base, where dot segments may underflow.
    ///
    /// # Examples
    ///
    /// ```
    /// use fluent_uri::{resolve::Resolver, Uri, UriRef};
    ///
    /// let resolver = Resolver::with_base(Uri::parse("http://a/b")?);
    /// assert_eq!(resolver.resolve(&UriRef::parse("../../c")?).unwrap(), "http://a/c");
    /// # Ok::<_, fluent_uri::ParseError>(())
    /// ```
    pub fn with_base(base: R) -> Self {
        Self { base, allow_path_underflow: true }
    }

    /// Sets whether dot segments may underflow. If not, a double dot with no segment left to remove
    /// is an error, and not dropped as by RFC 3986, section 5.2.4.
    ///
    /// # Examples
    ///
    /// ```
    /// use fluent_uri::{resolve::{ResolveError, Resolver}, Uri, UriRef};
    ///
    /// let strict = Resolver::with_base(Uri::parse("http://a/b")?).allow_path_underflow(false);
    /// let error = strict.resolve(&UriRef::parse("../c")?).unwrap_err();
    /// assert_eq!(error, ResolveError::PathUnderflow);
    /// # Ok::<_, fluent_uri::ParseError>(())
    /// ```
    pub fn allow_path_underflow(self, value: bool) -> Self {
        Self { allow_path_underflow: value, ..self }
    }

    /// Returns the target of a reference against the base, as
    /// [`UriRef::resolve_against`](crate::UriRef::resolve_against) does, by the setting.
    ///
    /// # Errors
    ///
    /// Returns the errors of `resolve_against`, and
    /// [`PathUnderflow`](ResolveError::PathUnderflow) if underflow is not allowed, and a double dot
    /// of a target path that begins with `/` has no segment left to remove.
    ///
    /// # Panics
    ///
    /// Panics if the base is the default value, which has no scheme.
    ///
    /// # Examples
    ///
    /// ```
    /// use fluent_uri::{resolve::Resolver, Iri, IriRef};
    ///
    /// let resolver = Resolver::with_base(Iri::parse("http://a/é/")?);
    /// assert_eq!(resolver.resolve(&IriRef::parse("ü")?).unwrap(), "http://a/é/ü");
    /// # Ok::<_, fluent_uri::ParseError>(())
    /// ```
    pub fn resolve<T: Bos<str>>(
        &self,
        reference: &R::Ref<T>,
    ) -> Result<R::WithVal<String>, ResolveError> {
        self.resolved(reference).map_err(outer)
    }

    /// Returns the normal form of the target of a reference against the base: that of
    /// [`resolve`](Self::resolve) with underflow allowed, by the rules of a normaliser. A base and a
    /// reference that are equivalent under the rules give the same result. Whether either setting
    /// allows underflow makes no difference.
    ///
    /// # Errors
    ///
    /// Returns the errors of `resolve_against`.
    ///
    /// # Panics
    ///
    /// Panics if the base is the default value, which has no scheme.
    ///
    /// # Examples
    ///
    /// ```
    /// use fluent_uri::{normalize::Normalizer, resolve::Resolver, rules::SchemeRules, Uri, UriRef};
    ///
    /// let resolver = Resolver::with_base(Uri::parse("http://x/")?);
    /// let normalizer = Normalizer::new().scheme_rules_with(SchemeRules::STANDARD);
    /// let normal = resolver.resolve_normalized(&UriRef::parse("//a:80")?, &normalizer);
    /// assert_eq!(normal.unwrap(), "http://a/");
    /// # Ok::<_, fluent_uri::ParseError>(())
    /// ```
    pub fn resolve_normalized<T: Bos<str>>(
        &self,
        reference: &R::Ref<T>,
        normalizer: &Normalizer,
    ) -> Result<R::WithVal<String>, ResolveError> {
        self.resolved_normal(reference, normalizer).map_err(outer)
    }

    pub(crate) fn resolved_normal<T: Bos<str>>(
        &self,
        reference: &R::Ref<T>,
        normalizer: &Normalizer,
    ) -> Result<R::WithVal<String>, EngineError> {
        let parts = (self.base.parts(), reference.parts());
        let (text, at) =
            engine::resolve_normalized::<R::Kind, _>(parts.0, parts.1, &normalizer.inner())?;
        Ok(R::WithVal::of(text, at))
    }

    pub(crate) fn resolved<T: Bos<str>>(
        &self,
        reference: &R::Ref<T>,
    ) -> Result<R::WithVal<String>, EngineError> {
        let allow = self.allow_path_underflow;
        let (text, at) = engine::resolve::<R::Kind>(self.base.parts(), reference.parts(), allow)?;
        Ok(R::WithVal::of(text, at))
    }
}

/// Resolves a reference against a base, with underflow allowed.
pub(crate) fn resolved<R, Q>(base: &R, reference: &Q) -> Result<R::WithVal<String>, EngineError>
where
    R: Ri<Val: Bos<str>>,
    Q: RiMaybeRef<Kind = R::Kind, Val: Bos<str>>,
{
    let (text, at) = engine::resolve::<R::Kind>(base.parts(), reference.parts(), true)?;
    Ok(R::WithVal::of(text, at))
}
