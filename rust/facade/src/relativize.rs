//! References that lead from a base to a target: the inverse of resolving (RFC 3986, section 5.2).

use crate::{
    engine::{base_of, into_made, made},
    fallible::AllocError,
    proved::{fluent_uri::roles::RefKind, rstd::alloc::Global, uri_relative as engine},
    reference::{Ri, RiMaybeRef},
};
use alloc::string::String;
use borrow_or_share::Bos;

/// What makes references that lead from a base to targets, by its setting: whether a relative path
/// is preferred.
///
/// # Examples
///
/// ```
/// use fluent_uri::{relativize::Relativizer, Uri};
///
/// let relativizer = Relativizer::with_base(Uri::parse("http://a/b/c/d")?);
/// assert_eq!(relativizer.relativize(&Uri::parse("http://a/b/x/y")?), "../x/y");
/// # Ok::<_, fluent_uri::ParseError>(())
/// ```
#[derive(Clone, Copy, Debug)]
#[must_use]
pub struct Relativizer<R> {
    base: R,
    prefers_relative_path: bool,
}

impl<R: Ri<Val: Bos<str>>> Relativizer<R> {
    /// Returns a relativizer that makes references from this base. If the path from the root is
    /// shorter than the relative one, they have that.
    ///
    /// # Examples
    ///
    /// ```
    /// use fluent_uri::{relativize::Relativizer, Uri};
    ///
    /// let relativizer = Relativizer::with_base(Uri::parse("http://a/b/c/d/")?);
    /// assert_eq!(relativizer.relativize(&Uri::parse("http://a/x")?), "/x");
    /// # Ok::<_, fluent_uri::ParseError>(())
    /// ```
    pub fn with_base(base: R) -> Self {
        Self { base, prefers_relative_path: false }
    }

    /// Sets whether references have a relative path even if the path from the root is shorter, as
    /// for pages that are read from a disk. If the base's path has a dot segment, the path is still
    /// the one from the root.
    ///
    /// # Examples
    ///
    /// ```
    /// use fluent_uri::{relativize::Relativizer, Uri};
    ///
    /// let relativizer = Relativizer::with_base(Uri::parse("http://a/b/c/d/")?);
    /// let relativizer = relativizer.prefer_relative_path(true);
    /// assert_eq!(relativizer.relativize(&Uri::parse("http://a/x")?), "../../../x");
    /// # Ok::<_, fluent_uri::ParseError>(())
    /// ```
    pub fn prefer_relative_path(self, value: bool) -> Self {
        Self { prefers_relative_path: value, ..self }
    }

    /// Returns a reference that leads from the base to the target. Resolved against the base
    /// without its fragment, it has the same target as the target itself.
    ///
    /// If the base's path has no dot segment, and unless a relative path is preferred, no such
    /// reference is shorter.
    ///
    /// # Panics
    ///
    /// Panics if the base or the target is the default value, which has no scheme.
    ///
    /// # Examples
    ///
    /// ```
    /// use fluent_uri::{relativize::Relativizer, Iri};
    ///
    /// let relativizer = Relativizer::with_base(Iri::parse("http://a/é?q")?);
    /// assert_eq!(relativizer.relativize(&Iri::parse("http://a/é?ü")?), "?ü");
    /// # Ok::<_, fluent_uri::ParseError>(())
    /// ```
    pub fn relativize<T: Bos<str>>(&self, target: &R::WithVal<T>) -> R::Ref<String> {
        made(self.try_relativize(target))
    }

    /// Returns what [`relativize`](Self::relativize) does, or an error if allocation fails.
    ///
    /// # Errors
    ///
    /// Returns an error only if allocation fails.
    ///
    /// # Panics
    ///
    /// Panics if the base or the target is the default value, which has no scheme.
    pub fn try_relativize<T: Bos<str>>(
        &self,
        target: &R::WithVal<T>,
    ) -> Result<R::Ref<String>, AllocError> {
        relativized(&self.base, target, self.prefers_relative_path)
    }
}

fn relativized<R: Ri<Val: Bos<str>>, T: Bos<str>>(
    base: &R,
    target: &R::WithVal<T>,
    prefers_relative_path: bool,
) -> Result<R::Ref<String>, AllocError> {
    let (base, target) = (base.parts(), target.parts());
    let base = base_of::<<R::Kind as RefKind>::Base>(base.0, base.1);
    let target = base_of::<<R::Kind as RefKind>::Base>(target.0, target.1);
    let reference = engine::Relativizer::with_base(base)
        .prefer_relative_path(prefers_relative_path)
        .relativize(Global, &target)?;
    let (text, at) = into_made(reference);
    Ok(R::Ref::of(text, at))
}

/// A base, from which references lead to targets: a URI or an IRI.
pub trait Relativize: Ri<Val: Bos<str>> {
    /// Returns a reference that leads from this one to the target, as [`Relativizer::relativize`]
    /// does without a preference.
    ///
    /// # Panics
    ///
    /// Panics if this value or the target is the default value, which has no scheme.
    ///
    /// # Examples
    ///
    /// ```
    /// use fluent_uri::{relativize::Relativize, Uri};
    ///
    /// let base = Uri::parse("http://a/b/c/d")?;
    /// assert_eq!(base.relativize(&Uri::parse("http://a/b/x/y")?), "../x/y");
    /// # Ok::<_, fluent_uri::ParseError>(())
    /// ```
    fn relativize<T: Bos<str>>(&self, target: &Self::WithVal<T>) -> Self::Ref<String>;
}

impl<R: Ri<Val: Bos<str>>> Relativize for R {
    fn relativize<T: Bos<str>>(&self, target: &R::WithVal<T>) -> R::Ref<String> {
        made(relativized(self, target, false))
    }
}
