//! Owned percent-encoded texts.

use super::{check, EStr, Encoder};
use crate::{
    engine::{made, with_text},
    fallible::AllocError,
    proved::uri_pct::encode,
};
use alloc::{borrow::ToOwned, string::String};
use core::{borrow::Borrow, cmp, fmt, hash, marker::PhantomData, ops::Deref};

/// An owned text that is valid for `E`, as an [`EStr`] is. It can grow.
///
/// # Comparison
///
/// Texts are compared byte by byte: `%2f` and `%2F` are not equal.
///
/// # Examples
///
/// ```
/// use fluent_uri::{pct_enc::{encoder::{Data, Query}, EStr, EString}, UriRef};
///
/// let mut query = EString::<Query>::new();
/// for (name, value) in [("name", "张三"), ("q", "a&b")] {
///     if !query.is_empty() {
///         query.push('&');
///     }
///     query.encode_str::<Data>(name);
///     query.push('=');
///     query.encode_str::<Data>(value);
/// }
/// let reference = UriRef::builder().path(EStr::EMPTY).query(&query).build().unwrap();
/// assert_eq!(reference, "?name=%E5%BC%A0%E4%B8%89&q=a%26b");
/// ```
#[derive(Clone, Default)]
pub struct EString<E: Encoder> {
    text: String,
    encoder: PhantomData<E>,
}

/// Whether `SubE` may encode for `E`.
struct Encodes<SubE, E>(PhantomData<(SubE, E)>);

impl<SubE: Encoder, E: Encoder> Encodes<SubE, E> {
    const CHECKED: () = {
        assert!(SubE::TABLE.is_subset(E::TABLE), "not a sub-encoder");
        assert!(SubE::TABLE.allows_pct_encoded(), "table does not allow percent-encoded octets");
    };
}

impl<E: Encoder> EString<E> {
    /// Returns an empty text, which allocates nothing.
    ///
    /// # Examples
    ///
    /// ```
    /// use fluent_uri::pct_enc::{encoder::Path, EString};
    ///
    /// assert_eq!(EString::<Path>::new(), "");
    /// ```
    #[must_use]
    pub fn new() -> Self {
        Self::of_valid(String::new())
    }

    /// Returns an empty text with room for at least so many bytes.
    ///
    /// # Panics
    ///
    /// Panics if the capacity is more than `isize::MAX`.
    ///
    /// # Examples
    ///
    /// ```
    /// use fluent_uri::pct_enc::{encoder::Path, EString};
    ///
    /// assert!(EString::<Path>::with_capacity(10).capacity() >= 10);
    /// ```
    #[must_use]
    pub fn with_capacity(capacity: usize) -> Self {
        Self::of_valid(String::with_capacity(capacity))
    }

    /// Returns a text that is known to be valid for `E`.
    pub(crate) fn of_valid(text: String) -> Self {
        debug_assert!(check::allows_text(E::TABLE, &text));
        Self { text, encoder: PhantomData }
    }

    /// Returns the text, borrowed.
    ///
    /// # Examples
    ///
    /// ```
    /// use fluent_uri::pct_enc::{encoder::Path, EStr, EString};
    ///
    /// let path = EString::from(EStr::<Path>::new_or_panic("/a"));
    /// assert!(path.as_estr().is_absolute());
    /// ```
    #[must_use]
    pub fn as_estr(&self) -> &EStr<E> {
        EStr::of_valid(&self.text)
    }

    /// Returns how many bytes the text may have before it allocates again.
    ///
    /// # Examples
    ///
    /// ```
    /// use fluent_uri::pct_enc::{encoder::Path, EString};
    ///
    /// assert_eq!(EString::<Path>::new().capacity(), 0);
    /// ```
    #[must_use]
    pub fn capacity(&self) -> usize {
        self.text.capacity()
    }

    /// Appends a text, encoded by `SubE`: a character stays if `SubE::TABLE` allows it, and else
    /// each byte of its UTF-8 becomes an octet (RFC 3986, section 2.1). A space becomes `%20`.
    ///
    /// It compiles only if `SubE` is a [sub-encoder](Encoder) of `E` and its table allows octets.
    /// [`Data`](super::encoder::Data) and [`IData`](super::encoder::IData) leave no delimiter.
    ///
    /// # Examples
    ///
    /// ```
    /// use fluent_uri::pct_enc::{encoder::{Data, Query}, EString};
    ///
    /// let mut query = EString::<Query>::new();
    /// query.encode_str::<Data>("a&é");
    /// assert_eq!(query, "a%26%C3%A9");
    /// ```
    pub fn encode_str<SubE: Encoder>(&mut self, s: &str) {
        made(self.try_encode_str::<SubE>(s));
    }

    /// Appends a text as [`encode_str`](Self::encode_str) does, or returns an error.
    ///
    /// # Errors
    ///
    /// Returns an error only if allocation fails. The text is then unchanged.
    pub fn try_encode_str<SubE: Encoder>(&mut self, s: &str) -> Result<(), AllocError> {
        let () = Encodes::<SubE, E>::CHECKED;
        with_text(&mut self.text, |out| encode::append_text(&SubE::TABLE.set, s, out))
    }

    /// Appends a text that is valid for `E`, or returns an error.
    ///
    /// # Errors
    ///
    /// Returns an error only if allocation fails. The text is then unchanged.
    pub fn try_push_estr(&mut self, s: &EStr<E>) -> Result<(), AllocError> {
        with_text(&mut self.text, |out| out.push_str(s.as_str()))
    }

    /// Appends bytes, encoded by `SubE`: a character stays if `SubE::TABLE` allows it, and each
    /// other byte becomes an octet.
    ///
    /// # Examples
    ///
    /// ```
    /// use fluent_uri::pct_enc::{encoder::Path, EString};
    ///
    /// let mut path = EString::<Path>::new();
    /// # #[allow(deprecated)]
    /// path.encode_bytes::<Path>(b"a\xFC");
    /// assert_eq!(path, "a%FC");
    /// ```
    #[deprecated(
        note = "use `<[u8]>::utf8_chunks`, `EString::encode_str`, `EStr::encode_byte`, and \
                `EString::push_estr` instead"
    )]
    pub fn encode_bytes<SubE: Encoder>(&mut self, bytes: &[u8]) {
        let () = Encodes::<SubE, E>::CHECKED;
        made(with_text(&mut self.text, |out| encode::append_bytes(&SubE::TABLE.set, bytes, out)));
    }

    /// Appends a character as it is.
    ///
    /// # Panics
    ///
    /// Panics if `E::TABLE` does not allow the character.
    ///
    /// # Examples
    ///
    /// ```
    /// use fluent_uri::pct_enc::{encoder::Query, EString};
    ///
    /// let mut query = EString::<Query>::new();
    /// query.push('&');
    /// assert_eq!(query, "&");
    /// ```
    pub fn push(&mut self, ch: char) {
        assert!(E::TABLE.allows(ch), "table does not allow the char");
        self.text.push(ch);
    }

    /// Appends a text that is valid for `E`.
    ///
    /// # Examples
    ///
    /// ```
    /// use fluent_uri::pct_enc::{encoder::Path, EStr, EString};
    ///
    /// let mut path = EString::<Path>::new();
    /// path.push_estr(EStr::new_or_panic("/%20"));
    /// assert_eq!(path, "/%20");
    /// ```
    pub fn push_estr(&mut self, s: &EStr<E>) {
        self.text.push_str(s.as_str());
    }

    /// Makes the text empty, and keeps its memory.
    ///
    /// # Examples
    ///
    /// ```
    /// use fluent_uri::pct_enc::{encoder::Path, EStr, EString};
    ///
    /// let mut path = EString::from(EStr::<Path>::new_or_panic("/a"));
    /// path.clear();
    /// assert!(path.is_empty());
    /// ```
    pub fn clear(&mut self) {
        self.text.clear();
    }

    /// Returns the text as a `String`, without a copy.
    ///
    /// # Examples
    ///
    /// ```
    /// use fluent_uri::pct_enc::{encoder::Path, EStr, EString};
    ///
    /// assert_eq!(EString::from(EStr::<Path>::new_or_panic("/a")).into_string(), "/a");
    /// ```
    #[must_use]
    pub fn into_string(self) -> String {
        self.text
    }
}

impl<E: Encoder> Deref for EString<E> {
    type Target = EStr<E>;

    fn deref(&self) -> &EStr<E> {
        self.as_estr()
    }
}

impl<E: Encoder> AsRef<EStr<E>> for EString<E> {
    fn as_ref(&self) -> &EStr<E> {
        self
    }
}

impl<E: Encoder> AsRef<str> for EString<E> {
    fn as_ref(&self) -> &str {
        &self.text
    }
}

impl<E: Encoder> Borrow<EStr<E>> for EString<E> {
    fn borrow(&self) -> &EStr<E> {
        self
    }
}

impl<E: Encoder> From<&EStr<E>> for EString<E> {
    fn from(s: &EStr<E>) -> Self {
        s.to_owned()
    }
}

impl<E: Encoder> ToOwned for EStr<E> {
    type Owned = EString<E>;

    fn to_owned(&self) -> EString<E> {
        EString::of_valid(self.as_str().to_owned())
    }

    fn clone_into(&self, target: &mut EString<E>) {
        self.as_str().clone_into(&mut target.text);
    }
}

impl<E: Encoder> PartialEq for EString<E> {
    fn eq(&self, other: &Self) -> bool {
        self.text == other.text
    }
}

/// Both directions of comparing with a type whose text `as_ref` returns.
macro_rules! equal {
    ($($other:ty,)*) => {
        $(
            impl<E: Encoder> PartialEq<$other> for EString<E> {
                fn eq(&self, other: &$other) -> bool {
                    self.text == text_of(other)
                }
            }

            impl<E: Encoder> PartialEq<EString<E>> for $other {
                fn eq(&self, other: &EString<E>) -> bool {
                    text_of(self) == other.text
                }
            }
        )*
    };
}

fn text_of(text: &(impl AsRef<str> + ?Sized)) -> &str {
    text.as_ref()
}

equal! {
    EStr<E>,
    &EStr<E>,
    str,
    &str,
}

impl<E: Encoder> Eq for EString<E> {}

impl<E: Encoder> hash::Hash for EString<E> {
    fn hash<H: hash::Hasher>(&self, state: &mut H) {
        self.text.hash(state);
    }
}

impl<E: Encoder> PartialOrd for EString<E> {
    fn partial_cmp(&self, other: &Self) -> Option<cmp::Ordering> {
        Some(self.cmp(other))
    }
}

impl<E: Encoder> Ord for EString<E> {
    fn cmp(&self, other: &Self) -> cmp::Ordering {
        self.text.cmp(&other.text)
    }
}

impl<E: Encoder> fmt::Debug for EString<E> {
    fn fmt(&self, f: &mut fmt::Formatter<'_>) -> fmt::Result {
        fmt::Debug::fmt(&self.text, f)
    }
}

impl<E: Encoder> fmt::Display for EString<E> {
    fn fmt(&self, f: &mut fmt::Formatter<'_>) -> fmt::Result {
        fmt::Display::fmt(&self.text, f)
    }
}
