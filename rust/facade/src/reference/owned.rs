//! Calls of the four types that make owned values.

#![cfg(feature = "alloc")]

use super::{Iri, IriRef, Uri, UriRef};
use crate::{
    build::{
        state::{NonRefStart, Start},
        Builder,
    },
    engine::made,
    pct_enc::{
        encoder::{Fragment, IFragment},
        EStr,
    },
    resolve::{outer, ResolveError},
};
use alloc::string::String;
use borrow_or_share::Bos;

macro_rules! owned {
    ($($Ty:ident $start:ident $FragmentE:ident;)*) => {
        $(
            impl $Ty<String> {
                /// Returns an empty builder.
                ///
                /// # Examples
                ///
                /// ```
                #[doc = concat!(
                    "use fluent_uri::{component::Scheme, pct_enc::EStr, ", stringify!($Ty), "};"
                )]
                ///
                #[doc = concat!(
                    "let builder = ", stringify!($Ty),
                    "::builder().scheme(Scheme::new_or_panic(\"a\"));"
                )]
                /// assert_eq!(builder.path(EStr::new_or_panic("b")).build().unwrap(), "a:b");
                /// ```
                #[inline]
                pub fn builder() -> Builder<Self, $start> {
                    Builder::new()
                }

                /// Returns the value over its own text, borrowed.
                ///
                /// # Examples
                ///
                /// ```
                #[doc = concat!("use fluent_uri::", stringify!($Ty), ";")]
                ///
                #[doc = concat!("let owned = ", stringify!($Ty), "::parse(\"a:b\")?.to_owned();")]
                /// let path = owned.borrow().path();
                /// assert_eq!(path, "b");
                /// # Ok::<_, fluent_uri::ParseError>(())
                /// ```
                #[allow(clippy::should_implement_trait)]
                #[inline]
                #[must_use]
                pub fn borrow(&self) -> $Ty<&str> {
                    $Ty { val: &self.val, at: self.at }
                }

                /// Returns the text as a `String`, without a copy.
                ///
                /// # Examples
                ///
                /// ```
                #[doc = concat!("use fluent_uri::", stringify!($Ty), ";")]
                ///
                #[doc = concat!(
                    "assert_eq!(", stringify!($Ty),
                    "::parse(\"a:b\")?.to_owned().into_string(), \"a:b\");"
                )]
                /// # Ok::<_, fluent_uri::ParseError>(())
                /// ```
                #[inline]
                #[must_use]
                pub fn into_string(self) -> String {
                    self.val
                }

                /// Replaces the fragment, or removes it if it is `None` (RFC 3986, section 3.5).
                ///
                /// # Examples
                ///
                /// ```
                #[doc = concat!("use fluent_uri::{pct_enc::EStr, ", stringify!($Ty), "};")]
                ///
                #[doc = concat!(
                    "let mut value = ", stringify!($Ty), "::parse(\"a:b#c\")?.to_owned();"
                )]
                /// value.set_fragment(Some(EStr::new_or_panic("d")));
                /// assert_eq!(value, "a:b#d");
                /// value.set_fragment(None);
                /// assert_eq!(value, "a:b");
                /// # Ok::<_, fluent_uri::ParseError>(())
                /// ```
                pub fn set_fragment(&mut self, opt: Option<&EStr<$FragmentE>>) {
                    made(self.try_set_fragment(opt));
                }

                pub(crate) fn text_mut(&mut self) -> &mut String {
                    &mut self.val
                }
            }

            impl $Ty<&str> {
                /// Returns a copy that owns its text.
                ///
                /// # Examples
                ///
                /// ```
                #[doc = concat!("use fluent_uri::", stringify!($Ty), ";")]
                ///
                #[doc = concat!(
                    "let owned: ", stringify!($Ty), "<String> = ", stringify!($Ty),
                    "::parse(\"a:b\")?.to_owned();"
                )]
                /// assert_eq!(owned, "a:b");
                /// # Ok::<_, fluent_uri::ParseError>(())
                /// ```
                #[inline]
                #[must_use]
                pub fn to_owned(&self) -> $Ty<String> {
                    $Ty { val: String::from(self.val), at: self.at }
                }
            }

            impl<T: Bos<str>> $Ty<T> {
                /// Returns the normal form (RFC 3986, section 6.2.2; RFC 3987, section 5.3.2).
                ///
                /// Two values have the same normal form exactly if they are equivalent. Normalising
                /// a normal form changes nothing.
                ///
                /// - The scheme and the host are in lower case, but for octets.
                /// - An octet of a character that is allowed and not reserved is decoded. Any other
                ///   octet has upper-case digits. The formatting characters of bidirectional text
                ///   stay octets, or become such (RFC 3987, section 4.1).
                /// - An IPv6 address is written by RFC 5952.
                /// - An empty or default port is left out, with its `:`.
                /// - With a scheme, a path that begins with `/` loses its dot segments. `/.` is put
                ///   before a path that begins with `//` where there is no authority.
                ///
                /// [`Normalizer`](crate::normalize::Normalizer) has settings.
                ///
                /// # Examples
                ///
                /// ```
                #[doc = concat!("use fluent_uri::", stringify!($Ty), ";")]
                ///
                #[doc = concat!(
                    "let value = ", stringify!($Ty),
                    "::parse(\"HTTP://Example.com:80/a/../%7efoo\")?;"
                )]
                /// assert_eq!(value.normalize(), "http://example.com/~foo");
                /// # Ok::<_, fluent_uri::ParseError>(())
                /// ```
                #[must_use]
                pub fn normalize(&self) -> $Ty<String> {
                    made(self.try_normalize())
                }

                /// Returns a copy with this fragment, or without one if it is `None` (RFC 3986,
                /// section 3.5).
                ///
                /// # Examples
                ///
                /// ```
                #[doc = concat!("use fluent_uri::{pct_enc::EStr, ", stringify!($Ty), "};")]
                ///
                #[doc = concat!("let value = ", stringify!($Ty), "::parse(\"a:b#c\")?;")]
                /// assert_eq!(value.with_fragment(Some(EStr::new_or_panic("d"))), "a:b#d");
                /// assert_eq!(value.with_fragment(None), "a:b");
                /// # Ok::<_, fluent_uri::ParseError>(())
                /// ```
                #[must_use]
                pub fn with_fragment(&self, opt: Option<&EStr<$FragmentE>>) -> $Ty<String> {
                    made(self.try_with_fragment(opt))
                }
            }
        )*
    };
}

owned! {
    Uri NonRefStart Fragment;
    UriRef Start Fragment;
    Iri NonRefStart IFragment;
    IriRef Start IFragment;
}

macro_rules! references {
    ($($Ref:ident $Ri:ident;)*) => {
        $(
            impl<T: Bos<str>> $Ref<T> {
                /// Resolves this reference against a base, and returns the target (RFC 3986,
                /// section 5.2; RFC 3987, section 6.5).
                ///
                /// The target is not normalised. Equivalent bases and references have equivalent
                /// targets. The algorithm is the strict one, with these differences:
                ///
                /// - A base without an authority whose path does not begin with `/` takes only a
                ///   reference that has a scheme, is empty or begins with `#`.
                /// - `/.` is put before a target path that begins with `//` where there is no
                ///   authority.
                /// - The dots of dot segments may be percent-encoded.
                /// - A base path that ends in a double dot is kept whole, followed by `/`, before a
                ///   merged path.
                /// - An empty reference path takes the base's path without its dot segments, if
                ///   that begins with `/`.
                /// - A reference with a scheme keeps a path that does not begin with `/`.
                ///
                /// # Errors
                ///
                /// - [`BaseWithFragment`](ResolveError::BaseWithFragment) if the base has a
                ///   fragment.
                /// - Otherwise
                ///   [`InvalidReferenceAgainstOpaqueBase`] if the base takes no such reference.
                ///
                /// [`InvalidReferenceAgainstOpaqueBase`]:
                ///     ResolveError::InvalidReferenceAgainstOpaqueBase
                ///
                /// # Panics
                ///
                /// Panics if the base is the default value, which has no scheme.
                ///
                /// # Examples
                ///
                /// ```
                #[doc = concat!("use fluent_uri::{", stringify!($Ri), ", ", stringify!($Ref), "};")]
                ///
                #[doc = concat!(
                    "let base = ", stringify!($Ri), "::parse(\"http://a/b/c/d;p?q\")?;"
                )]
                #[doc = concat!(
                    "let target = ", stringify!($Ref), "::parse(\"../g\")?.resolve_against(&base);"
                )]
                /// assert_eq!(target.unwrap(), "http://a/b/g");
                /// # Ok::<_, fluent_uri::ParseError>(())
                /// ```
                pub fn resolve_against<U: Bos<str>>(
                    &self,
                    base: &$Ri<U>,
                ) -> Result<$Ri<String>, ResolveError> {
                    self.try_resolve_against(base).map_err(outer)
                }
            }
        )*
    };
}

references! {
    UriRef Uri;
    IriRef Iri;
}
