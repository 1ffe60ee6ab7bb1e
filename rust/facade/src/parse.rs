//! Parsing.

use crate::proved::uri_parts::{kind::Kind, packed_positions::PackedPositions, parse::parse};

#[cfg(feature = "alloc")]
use alloc::string::String;

pub use crate::proved::uri_parts::error::{ParseError, ParseErrorKind};

/// A text that is parsed: a `&str` or a `String`.
pub trait Parse {
    /// What a parsed value holds.
    type Val;

    /// The error, with the text if it is owned.
    type Err;

    /// Parses the text as one of the kind `K`.
    #[doc(hidden)]
    fn parse<K: Kind>(self) -> Result<(Self::Val, PackedPositions), Self::Err>;
}

impl<'a> Parse for &'a str {
    type Val = &'a str;
    type Err = ParseError;

    #[inline]
    fn parse<K: Kind>(self) -> Result<(&'a str, PackedPositions), ParseError> {
        Ok((self, parse::<K>(self)?))
    }
}

#[cfg(feature = "alloc")]
impl Parse for String {
    type Val = Self;
    type Err = (ParseError, Self);

    #[inline]
    fn parse<K: Kind>(self) -> Result<(Self, PackedPositions), (ParseError, Self)> {
        match parse::<K>(&self) {
            Ok(positions) => Ok((self, positions)),
            Err(error) => Err((error, self)),
        }
    }
}
