//! The least change that makes a text a reference (RFC 3986, sections 2.1 and 4.1; RFC 3987,
//! section 3.1).

use crate::{
    engine::{into_made, made, Made},
    fallible::AllocError,
    pct_enc::cow,
    proved::{
        fluent_uri::Reference,
        rstd::{self, alloc::Global},
        uri_mend as engine,
        uri_parts::kind::{IriKind, IriRefKind, Kind, UriKind, UriRefKind},
    },
    reference::{Iri, IriRef, RiMaybeRef, Uri, UriRef},
};
use alloc::{borrow::Cow, string::String};

pub use crate::proved::uri_mend::MendError;

/// A type that a text may be mended to: `Uri`, `UriRef`, `Iri` or `IriRef` over `String`.
///
/// # Examples
///
/// ```
/// use fluent_uri::{mend::Mend, Iri, Uri};
///
/// assert_eq!(Uri::mend("http://h/a b?x=[é]")?, "http://h/a%20b?x=%5B%C3%A9%5D");
/// assert_eq!(Iri::mend("http://h/50%#é")?, "http://h/50%25#é");
/// # Ok::<_, fluent_uri::mend::MendError>(())
/// ```
pub trait Mend: Sized {
    /// Returns the reference that a text is mended to: what its path, its query or its fragment
    /// must not have is percent-encoded, and all else stays.
    ///
    /// A text of the type stays as it is, and so do the scheme and the authority of each text. If
    /// what is before a `:` is no scheme, it is in the path, after `./`. No reference of the type
    /// is the text with fewer characters percent-encoded.
    ///
    /// # Errors
    ///
    /// Returns [`Unmendable`](MendError::Unmendable) exactly if the authority is not one of the
    /// type, or if there is no scheme where one is needed, and
    /// [`OutOfMemory`](MendError::OutOfMemory) if allocation fails.
    ///
    /// # Examples
    ///
    /// ```
    /// use fluent_uri::{mend::Mend, UriRef};
    ///
    /// assert_eq!(UriRef::mend("1:2 3").unwrap(), "./1:2%203");
    /// assert!(UriRef::mend("//h:x/").is_err());
    /// ```
    fn mend(text: &str) -> Result<Self, MendError>;

    /// Returns the reference that an owned text is mended to, as [`mend`](Self::mend) does. A text
    /// of the type is not copied.
    ///
    /// # Errors
    ///
    /// Returns those of `mend`, each with the text as it was.
    ///
    /// # Examples
    ///
    /// ```
    /// use fluent_uri::{mend::Mend, UriRef};
    ///
    /// assert_eq!(UriRef::mend_owned("a b".to_string()).unwrap(), "a%20b");
    /// ```
    fn mend_owned(text: String) -> Result<Self, (MendError, String)>;

    /// Returns the reference that a link of a page is mended to: `mend` of what [`trim_link`]
    /// leaves.
    ///
    /// # Errors
    ///
    /// Returns those of `mend`, for what `trim_link` leaves.
    ///
    /// # Examples
    ///
    /// ```
    /// use fluent_uri::{mend::Mend, UriRef};
    ///
    /// assert_eq!(UriRef::mend_link(" http://h/a\n b ").unwrap(), "http://h/a%20b");
    /// ```
    fn mend_link(text: &str) -> Result<Self, MendError>;
}

/// The engine's calls, for a kind.
fn mended<K: Kind>(text: &str) -> Result<Made, MendError> {
    <Reference<K, rstd::String> as engine::Mend<K>>::mend(Global, text).map(into_made)
}

fn mended_owned<K: Kind>(text: String) -> Result<Made, (MendError, String)> {
    <Reference<K, rstd::String> as engine::Mend<K>>::mend_owned(Global, rstd::String(text))
        .map(into_made)
        .map_err(|(error, text)| (error, text.0))
}

fn mended_link<K: Kind>(text: &str) -> Result<Made, MendError> {
    <Reference<K, rstd::String> as engine::Mend<K>>::mend_link(Global, text).map(into_made)
}

macro_rules! mend {
    ($($Ty:ident $Kind:ident;)*) => {
        $(impl Mend for $Ty<String> {
            fn mend(text: &str) -> Result<Self, MendError> {
                let (text, at) = mended::<$Kind>(text)?;
                Ok(Self::of(text, at))
            }

            fn mend_owned(text: String) -> Result<Self, (MendError, String)> {
                let (text, at) = mended_owned::<$Kind>(text)?;
                Ok(Self::of(text, at))
            }

            fn mend_link(text: &str) -> Result<Self, MendError> {
                let (text, at) = mended_link::<$Kind>(text)?;
                Ok(Self::of(text, at))
            }
        })*
    };
}

mend! {
    Uri UriKind;
    UriRef UriRefKind;
    Iri IriKind;
    IriRef IriRefKind;
}

/// Returns the link that a page's text is, as HTML reads the attribute `href`: without the ASCII
/// white space at both ends, and without tabs, LF and CR. It is borrowed if nothing within it is
/// dropped.
///
/// # Examples
///
/// ```
/// assert_eq!(fluent_uri::mend::trim_link(" http://h/a\n b"), "http://h/a b");
/// ```
#[must_use]
pub fn trim_link(text: &str) -> Cow<'_, str> {
    made(try_trim_link(text))
}

/// Returns what [`trim_link`] does, or an error if allocation fails.
///
/// # Errors
///
/// Returns an error only if allocation fails.
pub fn try_trim_link(text: &str) -> Result<Cow<'_, str>, AllocError> {
    engine::trim_link(Global, text).map(cow)
}
