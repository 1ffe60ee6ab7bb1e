//! Resolving by the basic algorithm of RFC 3986, section 5.2, as it is printed.

use crate::{
    engine::{base_of, into_made, reference as engine_reference},
    proved::{fluent_uri::roles::RefKind, rstd::alloc::Global, uri_basic as engine},
    reference::{Ri, RiMaybeRef},
};
use alloc::string::String;
use borrow_or_share::Bos;

pub use crate::proved::uri_basic::BasicResolveError;

/// What resolves references against a base by the basic algorithm of RFC 3986, section 5.2.
///
/// # Examples
///
/// ```
/// use fluent_uri::{basic::BasicResolver, Uri, UriRef};
///
/// let resolver = BasicResolver::with_base(Uri::parse("foo:b")?);
/// assert_eq!(resolver.resolve(&UriRef::parse("g")?).unwrap(), "foo:g");
/// # Ok::<_, fluent_uri::ParseError>(())
/// ```
#[derive(Clone, Copy, Debug)]
#[must_use]
pub struct BasicResolver<R> {
    base: R,
}

impl<R: Ri<Val: Bos<str>>> BasicResolver<R> {
    /// Returns a resolver against this base.
    pub fn with_base(base: R) -> Self {
        Self { base }
    }

    /// Returns the target of a reference against the base, by the strict form of the algorithm. The
    /// base's fragment is ignored (section 5.1).
    ///
    /// Unlike [`Resolver::resolve`](crate::resolve::Resolver::resolve):
    ///
    /// | | Base, reference | Target | By `Resolver` |
    /// |---|---|---|---|
    /// | a base may have a fragment | `http://a/b#f`, `g` | `http://a/g` | `BaseWithFragment` |
    /// | a base may be opaque | `foo:b`, `g` | `foo:g` | `InvalidReferenceAgainstOpaqueBase` |
    /// | no `/.` is put before a path | `foo:/a`, `.//b` | an error | `foo:/.//b` |
    /// | encoded dots are no dots | `http://a/b`, `%2E%2E/g` | `http://a/%2E%2E/g` | `http://a/g` |
    /// | a base's last `..` is dropped | `http://a/b/..`, `g` | `http://a/b/g` | `http://a/g` |
    /// | a base's path stays | `http://a/./b`, `?q` | `http://a/./b?q` | `http://a/b?q` |
    /// | dots of any path are removed | `http://a/`, `foo:a/../b` | `foo:/b` | `foo:a/../b` |
    ///
    /// # Errors
    ///
    /// Returns [`PathStartsWithDoubleSlash`](BasicResolveError::PathStartsWithDoubleSlash) if the
    /// target has no authority and its path begins with `//`, and
    /// [`OutOfMemory`](BasicResolveError::OutOfMemory) if allocation fails.
    ///
    /// # Panics
    ///
    /// Panics if the base is the default value, which has no scheme.
    ///
    /// # Examples
    ///
    /// ```
    /// use fluent_uri::{basic::BasicResolver, Uri, UriRef};
    ///
    /// let resolver = BasicResolver::with_base(Uri::parse("http://a/b#f")?);
    /// assert_eq!(resolver.resolve(&UriRef::parse("g")?).unwrap(), "http://a/g");
    /// # Ok::<_, fluent_uri::ParseError>(())
    /// ```
    pub fn resolve<T: Bos<str>>(
        &self,
        reference: &R::Ref<T>,
    ) -> Result<R::WithVal<String>, BasicResolveError> {
        let ((base, base_at), (text, at)) = (self.base.parts(), reference.parts());
        let base = base_of::<<R::Kind as RefKind>::Base>(base, base_at);
        let reference = engine_reference::<R::Kind>(text, at);
        let target = engine::BasicResolver::with_base(base).resolve(Global, &reference)?;
        let (text, at) = into_made(target);
        Ok(R::WithVal::of(text, at))
    }
}
