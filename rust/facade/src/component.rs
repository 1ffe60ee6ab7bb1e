//! Schemes, authorities and hosts. The other components are percent-encoded texts ([`EStr`]).
//!
//! [`EStr`]: crate::pct_enc::EStr

mod authority;

pub use authority::{Authority, Host};

use crate::{
    pct_enc::encoder::{IRegName, IUserinfo},
    proved::{uri_parts::scheme as engine, uri_pct::table::SCHEME},
};
use core::{fmt, hash};
use ref_cast::{ref_cast_custom, RefCastCustom};

/// An authority of an IRI (RFC 3987, section 2.2).
pub type IAuthority<'a> = Authority<'a, IUserinfo, IRegName>;

/// A host of an IRI (RFC 3987, section 2.2).
pub type IHost<'a> = Host<'a, IRegName>;

/// A scheme (RFC 3986, section 3.1).
///
/// # Comparison
///
/// Schemes are equal, and have equal hashes, if their texts are equal but for the case of letters.
///
/// # Examples
///
/// ```
/// use fluent_uri::{component::Scheme, Uri};
///
/// const HTTP: &Scheme = Scheme::new_or_panic("http");
///
/// let scheme = Uri::parse("HTTP://example.com/")?.scheme();
/// assert_eq!(scheme, HTTP);
/// assert_eq!(scheme.as_str(), "HTTP");
/// # Ok::<_, fluent_uri::ParseError>(())
/// ```
#[derive(RefCastCustom)]
#[repr(transparent)]
pub struct Scheme {
    text: str,
}

impl Scheme {
    #[ref_cast_custom]
    const fn cast(text: &str) -> &Self;

    /// The scheme of the default value of `Uri` and `Iri`, which is none.
    pub(crate) const OF_DEFAULT: &'static Self = Self::cast("");

    /// Returns a text that is known to be a scheme.
    #[inline]
    pub(crate) const fn of_valid(text: &str) -> &Self {
        debug_assert!(is_scheme(text));
        Self::cast(text)
    }

    /// Returns the text as a scheme, which a constant may call.
    ///
    /// # Panics
    ///
    /// Panics if the text is not a scheme. [`new`](Self::new) returns `None` there.
    ///
    /// # Examples
    ///
    /// ```
    /// use fluent_uri::component::Scheme;
    ///
    /// const FILE: &Scheme = Scheme::new_or_panic("file");
    /// assert_eq!(FILE.as_str(), "file");
    /// ```
    #[inline]
    #[must_use]
    pub const fn new_or_panic(s: &str) -> &Self {
        match Self::new(s) {
            Some(scheme) => scheme,
            None => panic!("invalid scheme"),
        }
    }

    /// Returns the text as a scheme, or `None` if it is not one. A scheme is a letter followed by
    /// letters, digits, `+`, `-` and `.`.
    ///
    /// # Examples
    ///
    /// ```
    /// use fluent_uri::component::Scheme;
    ///
    /// assert!(Scheme::new("coap+tcp").is_some());
    /// assert!(Scheme::new("1a").is_none());
    /// ```
    #[inline]
    #[must_use]
    pub const fn new(s: &str) -> Option<&Self> {
        if is_scheme(s) {
            Some(Self::cast(s))
        } else {
            None
        }
    }

    pub(crate) fn inner(&self) -> engine::Scheme<'_> {
        engine::Scheme::new_or_panic(&self.text)
    }

    /// Returns the text.
    ///
    /// # Examples
    ///
    /// ```
    /// use fluent_uri::Uri;
    ///
    /// assert_eq!(Uri::parse("HTTP://a")?.scheme().as_str(), "HTTP");
    /// # Ok::<_, fluent_uri::ParseError>(())
    /// ```
    #[inline]
    #[must_use]
    pub fn as_str(&self) -> &str {
        &self.text
    }

    /// Returns the default port of the scheme (RFC 3986, section 3.2.3), if it is one of those in
    /// `src/proved/uri_parts/default_ports.rs`. The case of letters makes no difference.
    ///
    /// # Examples
    ///
    /// ```
    /// use fluent_uri::component::Scheme;
    ///
    /// assert_eq!(Scheme::new_or_panic("HTTPS").default_port(), Some(443));
    /// assert_eq!(Scheme::new_or_panic("foo").default_port(), None);
    /// ```
    #[must_use]
    pub fn default_port(&self) -> Option<u16> {
        self.inner().default_port()
    }
}

/// Returns whether a text is a scheme, as `new` of the engine's does, which no constant may call.
const fn is_scheme(text: &str) -> bool {
    let bytes = text.as_bytes();
    let mut i = 0;
    while i < bytes.len() && SCHEME.allows(bytes[i] as char) {
        i += 1;
    }
    i > 0 && i == bytes.len() && bytes[0].is_ascii_alphabetic()
}

impl PartialEq for Scheme {
    #[inline]
    fn eq(&self, other: &Self) -> bool {
        self.inner() == other.inner()
    }
}

impl Eq for Scheme {}

impl hash::Hash for Scheme {
    fn hash<H: hash::Hasher>(&self, state: &mut H) {
        self.inner().hash(state);
    }
}

impl fmt::Debug for Scheme {
    fn fmt(&self, f: &mut fmt::Formatter<'_>) -> fmt::Result {
        fmt::Debug::fmt(&self.text, f)
    }
}

impl fmt::Display for Scheme {
    fn fmt(&self, f: &mut fmt::Formatter<'_>) -> fmt::Result {
        fmt::Display::fmt(&self.text, f)
    }
}

#[cfg(test)]
mod tests {
    use super::{engine, is_scheme};
    use alloc::string::String;

    /// The check for constants says what the engine's says.
    #[test]
    fn schemes() {
        for a in '\0'..='\u{200}' {
            for b in ["", "a", "+", "1", "_", "é"] {
                for text in [
                    String::from_iter([b, &String::from(a)]),
                    String::from_iter([&String::from(a), b]),
                ] {
                    assert_eq!(is_scheme(&text), engine::Scheme::new(&text).is_some(), "{text:?}");
                }
            }
        }
        assert!(!is_scheme(""));
    }
}
