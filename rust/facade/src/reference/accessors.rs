//! The components of the four types.

use super::{Iri, IriRef, Uri, UriRef};
use crate::{
    component::{Authority, IAuthority, Scheme},
    pct_enc::{
        encoder::{Fragment, IFragment, IPath, IQuery, Path, Query},
        EStr,
    },
    proved::uri_parts::positions::Positions,
};
use borrow_or_share::{BorrowOrShare, Bos};

macro_rules! accessors {
    ($($Ty:ident: $Authority:ident $PathE:ident $QueryE:ident $FragmentE:ident;)*) => {
        $(
            impl<'i, 'o, T: BorrowOrShare<'i, 'o, str>> $Ty<T> {
                #[inline]
                fn split(&'i self) -> (&'o str, Positions) {
                    let text = self.as_str();
                    (text, self.at.unpack(text))
                }

                /// Returns the authority without its `//`, if there is one (RFC 3986, section 3.2).
                ///
                /// # Examples
                ///
                /// ```
                #[doc = concat!("use fluent_uri::", stringify!($Ty), ";")]
                ///
                #[doc = concat!("let value = ", stringify!($Ty), "::parse(\"http://a:80/b\")?;")]
                /// assert_eq!(value.authority().unwrap().as_str(), "a:80");
                #[doc = concat!(
                    "assert!(", stringify!($Ty), "::parse(\"mailto:b@a\")?.authority().is_none());"
                )]
                /// # Ok::<_, fluent_uri::ParseError>(())
                /// ```
                #[must_use]
                pub fn authority(&'i self) -> Option<$Authority<'o>> {
                    let (text, at) = self.split();
                    at.authority.map(|at| Authority::of(text, at))
                }

                /// Returns the path, which may be empty (RFC 3986, section 3.3).
                ///
                /// # Examples
                ///
                /// ```
                #[doc = concat!("use fluent_uri::", stringify!($Ty), ";")]
                ///
                #[doc = concat!(
                    "assert_eq!(", stringify!($Ty), "::parse(\"http://a/b?c#d\")?.path(), \"/b\");"
                )]
                #[doc = concat!(
                    "assert_eq!(", stringify!($Ty), "::parse(\"http://a\")?.path(), \"\");"
                )]
                /// # Ok::<_, fluent_uri::ParseError>(())
                /// ```
                #[must_use]
                pub fn path(&'i self) -> &'o EStr<$PathE> {
                    let (text, at) = self.split();
                    EStr::of_valid(at.path(text))
                }

                /// Returns the query without its `?`, if there is one (RFC 3986, section 3.4).
                ///
                /// # Examples
                ///
                /// ```
                #[doc = concat!("use fluent_uri::", stringify!($Ty), ";")]
                ///
                #[doc = concat!(
                    "assert_eq!(", stringify!($Ty),
                    "::parse(\"http://a/?c\")?.query().unwrap(), \"c\");"
                )]
                #[doc = concat!(
                    "assert!(", stringify!($Ty), "::parse(\"http://a/\")?.query().is_none());"
                )]
                /// # Ok::<_, fluent_uri::ParseError>(())
                /// ```
                #[must_use]
                pub fn query(&'i self) -> Option<&'o EStr<$QueryE>> {
                    let (text, at) = self.split();
                    at.query(text).map(EStr::of_valid)
                }

                /// Returns the fragment without its `#`, if there is one (RFC 3986, section 3.5).
                ///
                /// # Examples
                ///
                /// ```
                #[doc = concat!("use fluent_uri::", stringify!($Ty), ";")]
                ///
                #[doc = concat!(
                    "assert_eq!(", stringify!($Ty),
                    "::parse(\"http://a/#d\")?.fragment().unwrap(), \"d\");"
                )]
                #[doc = concat!(
                    "assert!(", stringify!($Ty), "::parse(\"http://a/\")?.fragment().is_none());"
                )]
                /// # Ok::<_, fluent_uri::ParseError>(())
                /// ```
                #[must_use]
                pub fn fragment(&'i self) -> Option<&'o EStr<$FragmentE>> {
                    let (text, at) = self.split();
                    at.fragment(text).map(EStr::of_valid)
                }
            }

            impl<T: Bos<str>> $Ty<T> {
                /// Returns whether there is an authority.
                ///
                /// # Examples
                ///
                /// ```
                #[doc = concat!("use fluent_uri::", stringify!($Ty), ";")]
                ///
                #[doc = concat!(
                    "assert!(", stringify!($Ty), "::parse(\"http://a\")?.has_authority());"
                )]
                #[doc = concat!(
                    "assert!(!", stringify!($Ty), "::parse(\"mailto:b@a\")?.has_authority());"
                )]
                /// # Ok::<_, fluent_uri::ParseError>(())
                /// ```
                #[must_use]
                pub fn has_authority(&self) -> bool {
                    let (text, at) = self.split();
                    at.has_authority(text)
                }

                /// Returns whether there is a query, which may be empty.
                ///
                /// # Examples
                ///
                /// ```
                #[doc = concat!("use fluent_uri::", stringify!($Ty), ";")]
                ///
                #[doc = concat!(
                    "assert!(", stringify!($Ty), "::parse(\"http://a?\")?.has_query());"
                )]
                #[doc = concat!(
                    "assert!(!", stringify!($Ty), "::parse(\"http://a\")?.has_query());"
                )]
                /// # Ok::<_, fluent_uri::ParseError>(())
                /// ```
                #[must_use]
                pub fn has_query(&self) -> bool {
                    let (text, at) = self.split();
                    at.has_query(text)
                }

                /// Returns whether there is a fragment, which may be empty.
                ///
                /// # Examples
                ///
                /// ```
                #[doc = concat!("use fluent_uri::", stringify!($Ty), ";")]
                ///
                #[doc = concat!(
                    "assert!(", stringify!($Ty), "::parse(\"http://a#\")?.has_fragment());"
                )]
                #[doc = concat!(
                    "assert!(!", stringify!($Ty), "::parse(\"http://a\")?.has_fragment());"
                )]
                /// # Ok::<_, fluent_uri::ParseError>(())
                /// ```
                #[must_use]
                pub fn has_fragment(&self) -> bool {
                    let (text, at) = self.split();
                    at.has_fragment(text)
                }

                /// Returns the text before the `#`, or all of it without one (RFC 3986, section
                /// 3.5).
                ///
                /// # Examples
                ///
                /// ```
                #[doc = concat!("use fluent_uri::", stringify!($Ty), ";")]
                ///
                #[doc = concat!("let value = ", stringify!($Ty), "::parse(\"http://a/#b\")?;")]
                /// assert_eq!(value.strip_fragment(), "http://a/");
                /// # Ok::<_, fluent_uri::ParseError>(())
                /// ```
                #[must_use]
                pub fn strip_fragment(&self) -> $Ty<&str> {
                    let (text, at) = self.split();
                    $Ty { val: at.without_fragment(text), at: self.at }
                }
            }
        )*
    };
}

accessors! {
    Uri: Authority Path Query Fragment;
    UriRef: Authority Path Query Fragment;
    Iri: IAuthority IPath IQuery IFragment;
    IriRef: IAuthority IPath IQuery IFragment;
}

macro_rules! schemes {
    ($($Ri:ident $Ref:ident;)*) => {
        $(
            impl<'i, 'o, T: BorrowOrShare<'i, 'o, str>> $Ri<T> {
                /// Returns the scheme without its `:` (RFC 3986, section 3.1).
                ///
                /// # Examples
                ///
                /// ```
                #[doc = concat!("use fluent_uri::{component::Scheme, ", stringify!($Ri), "};")]
                ///
                #[doc = concat!("let value = ", stringify!($Ri), "::parse(\"HTTP://a\")?;")]
                /// assert_eq!(value.scheme(), Scheme::new_or_panic("http"));
                /// # Ok::<_, fluent_uri::ParseError>(())
                /// ```
                #[must_use]
                pub fn scheme(&'i self) -> &'o Scheme {
                    let (text, at) = self.split();
                    at.scheme(text).map_or(Scheme::OF_DEFAULT, Scheme::of_valid)
                }
            }

            impl<'i, 'o, T: BorrowOrShare<'i, 'o, str>> $Ref<T> {
                /// Returns the scheme without its `:`, if there is one (RFC 3986, section 3.1).
                ///
                /// # Examples
                ///
                /// ```
                #[doc = concat!("use fluent_uri::{component::Scheme, ", stringify!($Ref), "};")]
                ///
                #[doc = concat!("let value = ", stringify!($Ref), "::parse(\"HTTP://a\")?;")]
                /// assert_eq!(value.scheme(), Some(Scheme::new_or_panic("http")));
                #[doc = concat!(
                    "assert_eq!(", stringify!($Ref), "::parse(\"a/b\")?.scheme(), None);"
                )]
                /// # Ok::<_, fluent_uri::ParseError>(())
                /// ```
                #[must_use]
                pub fn scheme(&'i self) -> Option<&'o Scheme> {
                    let (text, at) = self.split();
                    at.scheme(text).map(Scheme::of_valid)
                }
            }

            impl<T: Bos<str>> $Ref<T> {
                /// Returns whether there is a scheme.
                ///
                /// # Examples
                ///
                /// ```
                #[doc = concat!("use fluent_uri::", stringify!($Ref), ";")]
                ///
                #[doc = concat!(
                    "assert!(", stringify!($Ref), "::parse(\"http://a\")?.has_scheme());"
                )]
                #[doc = concat!("assert!(!", stringify!($Ref), "::parse(\"a/b\")?.has_scheme());")]
                /// # Ok::<_, fluent_uri::ParseError>(())
                /// ```
                #[must_use]
                pub fn has_scheme(&self) -> bool {
                    let (text, at) = self.split();
                    at.has_scheme(text)
                }
            }
        )*
    };
}

schemes! {
    Uri UriRef;
    Iri IriRef;
}
