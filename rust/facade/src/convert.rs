//! Conversions between the four types.

use crate::{
    proved::uri_ops::convert::{check_is_ascii, check_is_uri, ConvertError as EngineError},
    reference::{Iri, IriRef, RiMaybeRef, Uri, UriRef},
};
use borrow_or_share::Bos;
use core::fmt;

#[cfg(feature = "alloc")]
use {crate::engine::made, alloc::string::String};

/// Why a value is not of a narrower type.
///
/// # Examples
///
/// ```
/// use fluent_uri::{ConvertError, Iri, Uri};
///
/// let error = Uri::try_from(Iri::parse("a:é")?).unwrap_err();
/// assert_eq!(error, ConvertError::NotAscii { index: 2 });
/// # Ok::<_, fluent_uri::ParseError>(())
/// ```
#[derive(Clone, Copy, Debug, Eq, PartialEq)]
pub enum ConvertError {
    /// There is a character past ASCII, which a URI has not (RFC 3987, section 3.1).
    NotAscii {
        /// The byte at which the first such character begins.
        index: usize,
    },
    /// There is no scheme, which a URI or an IRI needs (RFC 3986, section 3).
    NoScheme,
}

impl From<EngineError> for ConvertError {
    fn from(error: EngineError) -> Self {
        match error {
            EngineError::NotAscii { index } => Self::NotAscii { index },
            EngineError::NoScheme => Self::NoScheme,
        }
    }
}

impl fmt::Display for ConvertError {
    fn fmt(&self, f: &mut fmt::Formatter<'_>) -> fmt::Result {
        let error = match *self {
            Self::NotAscii { index } => EngineError::NotAscii { index },
            Self::NoScheme => EngineError::NoScheme,
        };
        fmt::Display::fmt(&error, f)
    }
}

#[cfg(feature = "impl-error")]
impl core::error::Error for ConvertError {}

macro_rules! widen {
    ($($From:ident $To:ident;)*) => {
        $(
            /// Converts over the same text.
            impl<T: Bos<str>> From<$From<T>> for $To<T> {
                fn from(value: $From<T>) -> Self {
                    let (val, at) = value.into_parts();
                    Self::of(val, at)
                }
            }
        )*
    };
}

widen! {
    Uri UriRef;
    Uri Iri;
    Uri IriRef;
    UriRef IriRef;
    Iri IriRef;
}

/// Whether a value of one type may be of a narrower one.
trait Narrow<To> {
    fn check(&self) -> Result<(), EngineError>;
}

macro_rules! narrow {
    ($($From:ident $To:ident $rule:literal |$value:ident| $check:expr;)*) => {
        $(
            impl<T: Bos<str>, U> Narrow<$To<U>> for $From<T> {
                fn check(&self) -> Result<(), EngineError> {
                    let $value = self;
                    $check
                }
            }

            #[doc = $rule]
            impl<'a> TryFrom<$From<&'a str>> for $To<&'a str> {
                type Error = ConvertError;

                fn try_from(value: $From<&'a str>) -> Result<Self, Self::Error> {
                    Narrow::<Self>::check(&value)?;
                    let (val, at) = value.into_parts();
                    Ok(Self::of(val, at))
                }
            }

            #[doc = $rule]
            #[cfg(feature = "alloc")]
            impl TryFrom<$From<String>> for $To<String> {
                type Error = (ConvertError, $From<String>);

                fn try_from(value: $From<String>) -> Result<Self, Self::Error> {
                    if let Err(error) = Narrow::<Self>::check(&value) {
                        return Err((error.into(), value));
                    }
                    let (val, at) = value.into_parts();
                    Ok(Self::of(val, at))
                }
            }
        )*
    };
}

narrow! {
    UriRef Uri "Converts over the same text, or returns an error if there is no scheme."
        |value| check_has_scheme(value.has_scheme());
    Iri Uri "Converts over the same text, or returns an error if it is not ASCII."
        |value| check_is_ascii(value.as_str());
    IriRef Uri "Converts over the same text, or returns an error: no scheme, or not ASCII."
        |value| check_is_uri(value.as_str(), value.has_scheme());
    IriRef UriRef "Converts over the same text, or returns an error if it is not ASCII."
        |value| check_is_ascii(value.as_str());
    IriRef Iri "Converts over the same text, or returns an error if there is no scheme."
        |value| check_has_scheme(value.has_scheme());
}

fn check_has_scheme(has_scheme: bool) -> Result<(), EngineError> {
    if has_scheme {
        Ok(())
    } else {
        Err(EngineError::NoScheme)
    }
}

#[cfg(feature = "alloc")]
impl<T: Bos<str>> Iri<T> {
    /// Converts the IRI to a URI: each byte of a character past ASCII becomes an octet (RFC 3987,
    /// section 3.1). A host is not written in Punycode.
    ///
    /// # Examples
    ///
    /// ```
    /// use fluent_uri::Iri;
    ///
    /// assert_eq!(Iri::parse("http://a/é")?.to_uri(), "http://a/%C3%A9");
    /// # Ok::<_, fluent_uri::ParseError>(())
    /// ```
    pub fn to_uri(&self) -> Uri<String> {
        made(self.try_to_uri())
    }
}

#[cfg(feature = "alloc")]
impl<T: Bos<str>> IriRef<T> {
    /// Converts the IRI reference to a URI reference: each byte of a character past ASCII becomes
    /// an octet (RFC 3987, section 3.1). A host is not written in Punycode.
    ///
    /// # Examples
    ///
    /// ```
    /// use fluent_uri::IriRef;
    ///
    /// assert_eq!(IriRef::parse("é?ü")?.to_uri_ref(), "%C3%A9?%C3%BC");
    /// # Ok::<_, fluent_uri::ParseError>(())
    /// ```
    pub fn to_uri_ref(&self) -> UriRef<String> {
        made(self.try_to_uri_ref())
    }
}
