//! The traits of the four types.

use super::{nowhere, Iri, IriRef, Uri, UriRef, Value};
use crate::ParseError;
use borrow_or_share::Bos;
use core::{borrow::Borrow, cmp, fmt, hash};

#[cfg(feature = "alloc")]
use {
    alloc::{borrow::ToOwned, string::String},
    core::str::FromStr,
};

/// Comparing with a text, in both directions.
macro_rules! equal_to_text {
    ($Ty:ident, $text:ty) => {
        impl<T: Bos<str>> PartialEq<$text> for $Ty<T> {
            fn eq(&self, other: &$text) -> bool {
                let other: &str = other;
                self.as_str() == other
            }
        }

        impl<T: Bos<str>> PartialEq<$Ty<T>> for $text {
            fn eq(&self, other: &$Ty<T>) -> bool {
                other == self
            }
        }
    };
}

macro_rules! impls {
    ($($Ty:ident)*) => {
        $(
            /// Returns the empty text.
            impl<T: Value> Default for $Ty<T> {
                fn default() -> Self {
                    Self { val: T::default(), at: nowhere() }
                }
            }

            impl<T: Bos<str>, U: Bos<str>> PartialEq<$Ty<U>> for $Ty<T> {
                fn eq(&self, other: &$Ty<U>) -> bool {
                    self.as_str() == other.as_str()
                }
            }

            equal_to_text!($Ty, str);

            equal_to_text!($Ty, &str);

            impl<T: Bos<str>> Eq for $Ty<T> {}

            impl<T: Bos<str>> hash::Hash for $Ty<T> {
                fn hash<H: hash::Hasher>(&self, state: &mut H) {
                    self.as_str().hash(state);
                }
            }

            impl<T: Bos<str>> PartialOrd for $Ty<T> {
                fn partial_cmp(&self, other: &Self) -> Option<cmp::Ordering> {
                    Some(self.cmp(other))
                }
            }

            impl<T: Bos<str>> Ord for $Ty<T> {
                fn cmp(&self, other: &Self) -> cmp::Ordering {
                    self.as_str().cmp(other.as_str())
                }
            }

            impl<T: Bos<str>> AsRef<str> for $Ty<T> {
                fn as_ref(&self) -> &str {
                    self.as_str()
                }
            }

            impl<T: Bos<str>> Borrow<str> for $Ty<T> {
                fn borrow(&self) -> &str {
                    self.as_str()
                }
            }

            /// Parses the text, as `parse` does.
            impl<'a> TryFrom<&'a str> for $Ty<&'a str> {
                type Error = ParseError;

                #[inline]
                fn try_from(value: &'a str) -> Result<Self, Self::Error> {
                    Self::parse(value)
                }
            }

            /// Parses the text, as `parse` does.
            #[cfg(feature = "alloc")]
            impl TryFrom<String> for $Ty<String> {
                type Error = (ParseError, String);

                #[inline]
                fn try_from(value: String) -> Result<Self, Self::Error> {
                    Self::parse(value)
                }
            }

            impl<'a> From<$Ty<&'a str>> for &'a str {
                #[inline]
                fn from(value: $Ty<&'a str>) -> &'a str {
                    value.val
                }
            }

            #[cfg(feature = "alloc")]
            impl<'a> From<$Ty<String>> for String {
                #[inline]
                fn from(value: $Ty<String>) -> String {
                    value.val
                }
            }

            #[cfg(feature = "alloc")]
            impl From<$Ty<&str>> for $Ty<String> {
                #[inline]
                fn from(value: $Ty<&str>) -> Self {
                    value.to_owned()
                }
            }

            /// Parses a copy of the text.
            #[cfg(feature = "alloc")]
            impl FromStr for $Ty<String> {
                type Err = ParseError;

                #[inline]
                fn from_str(s: &str) -> Result<Self, Self::Err> {
                    let $Ty { val, at } = $Ty::parse(s)?;
                    Ok(Self { val: ToOwned::to_owned(val), at })
                }
            }

            /// Prints each component with its name.
            impl<T: Bos<str>> fmt::Debug for $Ty<T> {
                fn fmt(&self, f: &mut fmt::Formatter<'_>) -> fmt::Result {
                    f.debug_struct(stringify!($Ty))
                        .field("scheme", &self.scheme())
                        .field("authority", &self.authority())
                        .field("path", &self.path())
                        .field("query", &self.query())
                        .field("fragment", &self.fragment())
                        .finish()
                }
            }

            /// Prints the text.
            impl<T: Bos<str>> fmt::Display for $Ty<T> {
                fn fmt(&self, f: &mut fmt::Formatter<'_>) -> fmt::Result {
                    fmt::Display::fmt(self.as_str(), f)
                }
            }
        )*
    };
}

impls! { Uri UriRef Iri IriRef }
