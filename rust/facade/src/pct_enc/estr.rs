//! Borrowed percent-encoded texts.

use super::{check, Decode, Encoder, PathEncoder, Split};
use crate::{
    engine::Of,
    proved::uri_pct::{octet, pct_enc as engine, table::RESERVED},
};
use core::{cmp, fmt, hash, marker::PhantomData};
use ref_cast::{ref_cast_custom, RefCastCustom};

/// A text of characters that `E::TABLE` allows, and of percent-encoded octets if it allows these
/// (RFC 3986, section 2.1).
///
/// [`EString`](super::EString) is its owned form.
///
/// # Comparison
///
/// Texts are compared byte by byte: `%2f` and `%2F` are not equal.
///
/// # Examples
///
/// Split before decoding: an octet in a name may encode a delimiter.
///
/// ```
/// use fluent_uri::UriRef;
///
/// let query = UriRef::parse("?a%26b=1&c")?.query().unwrap();
/// let mut names = query.split('&').map(|pair| pair.split_once('=').map_or(pair, |cut| cut.0));
/// assert_eq!(names.next().unwrap().decode().to_string_lossy(), "a&b");
/// assert_eq!(names.next().unwrap(), "c");
/// # Ok::<_, fluent_uri::ParseError>(())
/// ```
#[derive(RefCastCustom)]
#[repr(transparent)]
pub struct EStr<E: Encoder> {
    encoder: PhantomData<E>,
    text: str,
}

impl<E: Encoder> EStr<E> {
    /// The empty text.
    ///
    /// # Examples
    ///
    /// ```
    /// use fluent_uri::pct_enc::{encoder::Query, EStr};
    ///
    /// assert!(EStr::<Query>::EMPTY.is_empty());
    /// ```
    pub const EMPTY: &'static Self = Self::of_valid("");

    const ALLOWS_OCTETS: () =
        assert!(E::TABLE.allows_pct_encoded(), "table does not allow percent-encoded octets");

    #[ref_cast_custom]
    const fn cast(text: &str) -> &Self;

    /// Returns a text that is known to be valid for `E`.
    #[inline]
    pub(crate) const fn of_valid(text: &str) -> &Self {
        debug_assert!(check::allows_text(E::TABLE, text));
        Self::cast(text)
    }

    /// Returns the text as an `EStr`, which a constant may call.
    ///
    /// # Panics
    ///
    /// Panics if the text is not valid for `E`. [`new`](Self::new) returns `None` there.
    ///
    /// # Examples
    ///
    /// ```
    /// use fluent_uri::pct_enc::{encoder::Path, EStr};
    ///
    /// const ROOT: &EStr<Path> = EStr::new_or_panic("/");
    /// assert_eq!(ROOT, "/");
    /// ```
    #[must_use]
    pub const fn new_or_panic(s: &str) -> &Self {
        match Self::new(s) {
            Some(s) => s,
            None => panic!("improperly encoded string"),
        }
    }

    /// Returns the text as an `EStr`, or `None` if it is not valid for `E`.
    ///
    /// # Examples
    ///
    /// ```
    /// use fluent_uri::pct_enc::{encoder::Path, EStr};
    ///
    /// assert!(EStr::<Path>::new("a%20b").is_some());
    /// assert!(EStr::<Path>::new("a b").is_none());
    /// ```
    #[must_use]
    pub const fn new(s: &str) -> Option<&Self> {
        if check::allows_text(E::TABLE, s) {
            Some(Self::cast(s))
        } else {
            None
        }
    }

    /// Returns a byte as a percent-encoded octet, with upper-case digits. It compiles only if
    /// `E::TABLE` allows these.
    ///
    /// # Examples
    ///
    /// ```
    /// use fluent_uri::pct_enc::{encoder::Path, EStr};
    ///
    /// assert_eq!(EStr::<Path>::encode_byte(0xE9), "%E9");
    /// ```
    #[must_use]
    pub fn encode_byte(x: u8) -> &'static Self {
        let () = Self::ALLOWS_OCTETS;
        Self::of_valid(octet::pct_encoded(x))
    }

    /// Returns the text.
    ///
    /// # Examples
    ///
    /// ```
    /// use fluent_uri::pct_enc::{encoder::Path, EStr};
    ///
    /// assert_eq!(EStr::<Path>::new_or_panic("a%20b").as_str(), "a%20b");
    /// ```
    #[inline]
    #[must_use]
    pub fn as_str(&self) -> &str {
        &self.text
    }

    /// Returns the length of the text in bytes. An octet counts three.
    ///
    /// # Examples
    ///
    /// ```
    /// use fluent_uri::pct_enc::{encoder::Path, EStr};
    ///
    /// assert_eq!(EStr::<Path>::new_or_panic("a%20b").len(), 5);
    /// ```
    #[inline]
    #[must_use]
    pub fn len(&self) -> usize {
        self.text.len()
    }

    /// Returns whether the text is empty.
    ///
    /// # Examples
    ///
    /// ```
    /// use fluent_uri::pct_enc::{encoder::Path, EStr};
    ///
    /// assert!(!EStr::<Path>::new_or_panic("/").is_empty());
    /// ```
    #[inline]
    #[must_use]
    pub fn is_empty(&self) -> bool {
        self.text.is_empty()
    }

    fn inner(&self) -> engine::EStr<'_, Of<E>> {
        engine::EStr::new_or_panic(&self.text)
    }

    /// Returns the engine's text. It compiles only if the encoder allows percent-encoded octets.
    #[cfg(feature = "alloc")]
    pub(crate) fn with_octets(&self) -> engine::EStr<'_, Of<E>> {
        let () = Self::ALLOWS_OCTETS;
        self.inner()
    }

    /// Returns an iterator over the parts of the text, decoded. It compiles only if
    /// `E::TABLE` allows percent-encoded octets. Split before decoding. `+` is not a space.
    ///
    /// # Examples
    ///
    /// ```
    /// use fluent_uri::pct_enc::{encoder::Path, EStr};
    ///
    /// let decoded = EStr::<Path>::new_or_panic("%C2%A1Hola%21").decode();
    /// assert_eq!(decoded.to_string().unwrap(), "¡Hola!");
    /// ```
    pub fn decode(&self) -> Decode<'_> {
        let () = Self::ALLOWS_OCTETS;
        Decode::of_text(&self.text)
    }

    /// Returns the substrings between the occurrences of a delimiter. The empty text has one.
    ///
    /// # Panics
    ///
    /// Panics if the delimiter is not reserved (RFC 3986, section 2.2).
    ///
    /// # Examples
    ///
    /// ```
    /// use fluent_uri::pct_enc::{encoder::Query, EStr};
    ///
    /// assert!(EStr::<Query>::new_or_panic("a&&b").split('&').eq(["a", "", "b"]));
    /// ```
    pub fn split(&self, delim: char) -> Split<'_, E> {
        check_delimiter(delim);
        Split::of(self.inner().split(delim))
    }

    /// Returns what is before the first delimiter and what is after it, or `None` without one.
    ///
    /// # Panics
    ///
    /// Panics if the delimiter is not reserved (RFC 3986, section 2.2).
    ///
    /// # Examples
    ///
    /// ```
    /// use fluent_uri::pct_enc::{encoder::Query, EStr};
    ///
    /// let (name, value) = EStr::<Query>::new_or_panic("a=b=c").split_once('=').unwrap();
    /// assert_eq!((name.as_str(), value.as_str()), ("a", "b=c"));
    /// ```
    #[must_use]
    pub fn split_once(&self, delim: char) -> Option<(&Self, &Self)> {
        check_delimiter(delim);
        self.inner().split_once(delim).map(outer_pair)
    }

    /// Returns what is before the last delimiter and what is after it, or `None` without one.
    ///
    /// # Panics
    ///
    /// Panics if the delimiter is not reserved (RFC 3986, section 2.2).
    ///
    /// # Examples
    ///
    /// ```
    /// use fluent_uri::pct_enc::{encoder::Path, EStr};
    ///
    /// let (folder, name) = EStr::<Path>::new_or_panic("/a/b").rsplit_once('/').unwrap();
    /// assert_eq!((folder.as_str(), name.as_str()), ("/a", "b"));
    /// ```
    #[must_use]
    pub fn rsplit_once(&self, delim: char) -> Option<(&Self, &Self)> {
        check_delimiter(delim);
        self.inner().rsplit_once(delim).map(outer_pair)
    }
}

/// Calls of paths (RFC 3986, section 3.3).
impl<E: PathEncoder> EStr<E> {
    /// Returns whether the path begins with `/`.
    ///
    /// # Examples
    ///
    /// ```
    /// use fluent_uri::pct_enc::{encoder::Path, EStr};
    ///
    /// assert!(EStr::<Path>::new_or_panic("/a").is_absolute());
    /// ```
    #[inline]
    #[must_use]
    pub fn is_absolute(&self) -> bool {
        self.inner().is_absolute()
    }

    /// Returns whether the path does not begin with `/`. The empty path does not.
    ///
    /// # Examples
    ///
    /// ```
    /// use fluent_uri::pct_enc::{encoder::Path, EStr};
    ///
    /// assert!(EStr::<Path>::EMPTY.is_rootless());
    /// ```
    #[inline]
    #[must_use]
    pub fn is_rootless(&self) -> bool {
        self.inner().is_rootless()
    }

    /// Returns the segments of a path that begins with `/`, or `None` for one that does not.
    ///
    /// # Examples
    ///
    /// ```
    /// use fluent_uri::pct_enc::{encoder::Path, EStr};
    ///
    /// let path = EStr::<Path>::new_or_panic("/a//b/");
    /// assert!(path.segments_if_absolute().unwrap().eq(["a", "", "b", ""]));
    /// assert!(EStr::<Path>::new_or_panic("a/b").segments_if_absolute().is_none());
    /// ```
    #[inline]
    #[must_use]
    pub fn segments_if_absolute(&self) -> Option<Split<'_, E>> {
        self.inner().segments_if_absolute().map(Split::of)
    }
}

fn check_delimiter(delim: char) {
    assert!(RESERVED.allows(delim), "splitting with non-reserved character");
}

/// Returns a text of the engine as one of this crate.
pub(crate) fn outer<E: Encoder>(text: engine::EStr<'_, Of<E>>) -> &EStr<E> {
    EStr::of_valid(text.as_str())
}

type Pair<T> = (T, T);

fn outer_pair<'a, E: Encoder>(pair: Pair<engine::EStr<'a, Of<E>>>) -> Pair<&'a EStr<E>> {
    (outer(pair.0), outer(pair.1))
}

impl<E: Encoder> fmt::Debug for EStr<E> {
    fn fmt(&self, f: &mut fmt::Formatter<'_>) -> fmt::Result {
        fmt::Debug::fmt(&self.text, f)
    }
}

impl<E: Encoder> fmt::Display for EStr<E> {
    fn fmt(&self, f: &mut fmt::Formatter<'_>) -> fmt::Result {
        fmt::Display::fmt(&self.text, f)
    }
}

impl<E: Encoder> AsRef<Self> for EStr<E> {
    fn as_ref(&self) -> &Self {
        self
    }
}

impl<E: Encoder> AsRef<str> for EStr<E> {
    fn as_ref(&self) -> &str {
        &self.text
    }
}

impl<E: Encoder> PartialEq for EStr<E> {
    fn eq(&self, other: &Self) -> bool {
        self.text == other.text
    }
}

impl<E: Encoder> PartialEq<str> for EStr<E> {
    fn eq(&self, other: &str) -> bool {
        &self.text == other
    }
}

impl<E: Encoder> PartialEq<EStr<E>> for str {
    fn eq(&self, other: &EStr<E>) -> bool {
        self == &other.text
    }
}

impl<E: Encoder> Eq for EStr<E> {}

impl<E: Encoder> hash::Hash for EStr<E> {
    fn hash<H: hash::Hasher>(&self, state: &mut H) {
        self.text.hash(state);
    }
}

impl<E: Encoder> PartialOrd for EStr<E> {
    fn partial_cmp(&self, other: &Self) -> Option<cmp::Ordering> {
        Some(self.cmp(other))
    }
}

impl<E: Encoder> Ord for EStr<E> {
    fn cmp(&self, other: &Self) -> cmp::Ordering {
        self.text.cmp(&other.text)
    }
}

/// Returns the empty text.
impl<E: Encoder> Default for &EStr<E> {
    fn default() -> Self {
        EStr::EMPTY
    }
}
