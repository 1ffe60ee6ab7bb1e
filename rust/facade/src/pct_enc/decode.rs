//! Decoding.

use crate::proved::uri_pct::decode as engine;
use core::iter::FusedIterator;

#[cfg(feature = "alloc")]
use crate::{
    engine::{made, out_of_memory},
    fallible::DecodeError,
    proved::uri_pct::cow::CowStr,
};
#[cfg(feature = "alloc")]
use alloc::{borrow::Cow, vec::Vec};

/// A part of an [`EStr`](super::EStr) that is decoded.
///
/// # Examples
///
/// ```
/// use fluent_uri::pct_enc::{encoder::Path, DecodedChunk, EStr};
///
/// let chunk = EStr::<Path>::new_or_panic("%E9").decode().next();
/// assert!(matches!(chunk, Some(DecodedChunk::PctDecoded(0xE9))));
/// ```
#[derive(Clone, Copy, Debug)]
pub enum DecodedChunk<'a> {
    /// A text without `%`, which is not empty.
    Unencoded(&'a str),
    /// The byte of an octet: 0x20 of `%20`.
    PctDecoded(u8),
}

/// What is left to decode of an [`EStr`](super::EStr): an iterator over its [`DecodedChunk`]s.
///
/// [`EStr::decode`](super::EStr::decode) returns it.
///
/// # Examples
///
/// ```
/// use fluent_uri::pct_enc::{encoder::Path, DecodedChunk, EStr};
///
/// let mut chunks = EStr::<Path>::new_or_panic("a%20b").decode();
/// assert!(matches!(chunks.next(), Some(DecodedChunk::Unencoded("a"))));
/// assert!(matches!(chunks.next(), Some(DecodedChunk::PctDecoded(0x20))));
/// ```
#[derive(Clone, Debug)]
#[must_use = "iterators are lazy and do nothing unless consumed"]
pub struct Decode<'a> {
    source: &'a str,
}

impl<'a> Decode<'a> {
    /// Returns a decoder of a text in which each `%` begins an octet.
    pub(crate) fn of_text(source: &'a str) -> Self {
        Self { source }
    }

    pub(crate) fn inner(&self) -> engine::Decode<'a> {
        engine::Decode::of_text(self.source)
    }
}

#[cfg(feature = "alloc")]
impl<'a> Decode<'a> {
    /// Returns the bytes that are left, decoded. Without a `%` they are borrowed.
    ///
    /// # Examples
    ///
    /// ```
    /// use fluent_uri::pct_enc::{encoder::Path, EStr};
    ///
    /// assert_eq!(*EStr::<Path>::new_or_panic("a%E9").decode().to_bytes(), [0x61, 0xE9]);
    /// ```
    #[must_use]
    pub fn to_bytes(self) -> Cow<'a, [u8]> {
        made(self.try_to_bytes())
    }

    /// Returns the text that is left, decoded. Without a `%` it is borrowed. `+` stays.
    ///
    /// # Errors
    ///
    /// Returns the decoded bytes if they are not UTF-8.
    ///
    /// # Examples
    ///
    /// ```
    /// use fluent_uri::pct_enc::{encoder::Path, EStr};
    ///
    /// assert_eq!(EStr::<Path>::new_or_panic("%C3%A9+").decode().to_string().unwrap(), "é+");
    /// assert_eq!(EStr::<Path>::new_or_panic("%E9").decode().to_string(), Err(vec![0xE9]));
    /// ```
    pub fn to_string(self) -> Result<Cow<'a, str>, Vec<u8>> {
        self.try_to_string().map_err(|error| match error {
            DecodeError::NotUtf8(bytes) => bytes,
            DecodeError::OutOfMemory => out_of_memory(),
        })
    }

    /// Returns the text that is left, decoded, with U+FFFD for each maximal ill-formed part
    /// (Unicode, section 3.9). Without a `%` it is borrowed.
    ///
    /// # Examples
    ///
    /// ```
    /// use fluent_uri::pct_enc::{encoder::Path, EStr};
    ///
    /// assert_eq!(EStr::<Path>::new_or_panic("a%E9b").decode().to_string_lossy(), "a\u{FFFD}b");
    /// ```
    #[must_use]
    pub fn to_string_lossy(self) -> Cow<'a, str> {
        made(self.try_to_string_lossy())
    }
}

/// Returns a text of the engine as one of Rust's.
#[cfg(feature = "alloc")]
pub(crate) fn cow(text: CowStr<'_>) -> Cow<'_, str> {
    match text {
        CowStr::Borrowed(text) => Cow::Borrowed(text),
        CowStr::Owned(text) => Cow::Owned(text.0),
    }
}

impl<'a> Iterator for Decode<'a> {
    type Item = DecodedChunk<'a>;

    fn next(&mut self) -> Option<Self::Item> {
        let mut inner = self.inner();
        let chunk = inner.next();
        self.source = inner.as_str();
        chunk.map(|chunk| match chunk {
            engine::DecodedChunk::Unencoded(text) => DecodedChunk::Unencoded(text),
            engine::DecodedChunk::PctDecoded(byte) => DecodedChunk::PctDecoded(byte),
        })
    }
}

impl FusedIterator for Decode<'_> {}
