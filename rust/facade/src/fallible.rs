//! Calls for programs that may not abort: an error in place of an abort where allocation fails.
//!
//! Each call that allocates has one whose name begins with `try_`.
//!
//! | Type | Calls |
//! |---|---|
//! | each of the four | `try_to_owned`, `try_normalize`, `try_with_fragment`, `try_set_fragment` |
//! | [`UriRef`], [`IriRef`] | `try_resolve_against` |
//! | [`Iri`] | `try_to_uri` |
//! | [`IriRef`] | `try_to_uri_ref` |
//! | [`Normalizer`] | `try_normalize` |
//! | [`Resolver`] | `try_resolve`, `try_resolve_normalized` |
//! | [`Builder`] | `try_build`: the other steps never abort |
//! | [`EStr`] | `try_to_owned` |
//! | [`EString`] | `try_encode_str`, `try_push_estr` |
//! | [`Decode`] | `try_to_bytes`, `try_to_string`, `try_to_string_lossy` |
//!
//! Calls of the modules beside this one that return an error have a case for allocation in it, and
//! never abort. Parsing allocates nothing.
//!
//! # Examples
//!
//! ```
//! use fluent_uri::{fallible::ResolveError, Uri, UriRef};
//!
//! fn target(base: &Uri<&str>, link: &UriRef<&str>) -> Result<Uri<String>, ResolveError> {
//!     Ok(link.try_resolve_against(base)?.try_normalize()?)
//! }
//!
//! let base = Uri::parse("http://a/b/")?;
//! assert_eq!(target(&base, &UriRef::parse("./%7e")?).unwrap(), "http://a/b/~");
//! # Ok::<_, fluent_uri::ParseError>(())
//! ```

use crate::{
    build::{
        state::{End, To},
        Builder,
    },
    engine::{self, encode_past_ascii},
    normalize::Normalizer,
    pct_enc::{
        cow,
        encoder::{Fragment, IFragment},
        Decode, EStr, EString, Encoder,
    },
    proved::{
        rstd::{self, alloc::Global},
        uri_ops::normalize as proved,
        uri_pct::cow::{CowSlice, DecodeError as EngineDecodeError},
    },
    reference::{Iri, IriRef, Ri, RiMaybeRef, Uri, UriRef},
    resolve::{resolved, Resolver},
};
use alloc::{borrow::Cow, string::String, vec::Vec};
use borrow_or_share::Bos;
use core::fmt;

pub use crate::proved::{
    rstd::alloc::AllocError,
    uri_ops::{build::BuildError, normalize::NormalizeError, resolve::ResolveError},
};

fn copy(text: &str) -> Result<String, AllocError> {
    Ok(rstd::String::from_str(Global, text)?.0)
}

macro_rules! fallible {
    ($($Ty:ident $FragmentE:ident;)*) => {
        $(
            impl $Ty<&str> {
                /// Returns a copy that owns its text, or an error.
                ///
                /// # Errors
                ///
                /// Returns an error only if allocation fails.
                pub fn try_to_owned(&self) -> Result<$Ty<String>, AllocError> {
                    let (text, at) = self.parts();
                    Ok($Ty::of(copy(text)?, at))
                }
            }

            impl<T: Bos<str>> $Ty<T> {
                /// Returns the normal form, as `normalize` does, or an error.
                ///
                /// # Errors
                ///
                /// Returns an error only if allocation fails.
                pub fn try_normalize(&self) -> Result<$Ty<String>, AllocError> {
                    let normalizer = proved::Normalizer::new();
                    match engine::normalize::<<Self as RiMaybeRef>::Kind, _>(
                        self.parts(), &normalizer,
                    ) {
                        Ok((text, at)) => Ok($Ty::of(text, at)),
                        Err(NormalizeError::OutOfMemory) => Err(AllocError),
                        Err(NormalizeError::PathUnderflow) => unreachable!(),
                    }
                }

                /// Returns a copy with this fragment, as `with_fragment` does, or an error.
                ///
                /// # Errors
                ///
                /// Returns an error only if allocation fails.
                pub fn try_with_fragment(
                    &self,
                    opt: Option<&EStr<$FragmentE>>,
                ) -> Result<$Ty<String>, AllocError> {
                    let (text, at) = self.parts();
                    let fragment = opt.map(EStr::as_str);
                    let text =
                        engine::with_fragment::<<Self as RiMaybeRef>::Kind>(text, at, fragment)?;
                    Ok($Ty::of(text, at))
                }
            }

            impl $Ty<String> {
                /// Replaces the fragment, as `set_fragment` does, or returns an error. Removing it
                /// allocates nothing.
                ///
                /// # Errors
                ///
                /// Returns an error only if allocation fails. The value is then unchanged.
                pub fn try_set_fragment(
                    &mut self,
                    opt: Option<&EStr<$FragmentE>>,
                ) -> Result<(), AllocError> {
                    let at = self.parts().1;
                    let fragment = opt.map(EStr::as_str);
                    engine::set_fragment::<<Self as RiMaybeRef>::Kind>(
                        self.text_mut(), at, fragment,
                    )
                }
            }
        )*
    };
}

fallible! {
    Uri Fragment;
    UriRef Fragment;
    Iri IFragment;
    IriRef IFragment;
}

macro_rules! fallible_references {
    ($($Ref:ident $Ri:ident;)*) => {
        $(impl<T: Bos<str>> $Ref<T> {
            /// Resolves this reference against a base, as `resolve_against` does.
            ///
            /// # Errors
            ///
            /// Returns the errors of `resolve_against`, and `OutOfMemory` if allocation fails.
            ///
            /// # Panics
            ///
            /// Panics if the base is the default value, which has no scheme.
            pub fn try_resolve_against<U: Bos<str>>(
                &self,
                base: &$Ri<U>,
            ) -> Result<$Ri<String>, ResolveError> {
                resolved(base, self)
            }
        })*
    };
}

fallible_references! {
    UriRef Uri;
    IriRef Iri;
}

/// Returns a value with its characters past ASCII percent-encoded.
pub(crate) fn encoded<R, To>(value: &R) -> Result<To, AllocError>
where
    R: RiMaybeRef<Val: Bos<str>>,
    To: RiMaybeRef<Val = String>,
{
    let (text, at) = value.parts();
    let (text, at) = encode_past_ascii::<R::Kind>(text, at)?;
    Ok(To::of(text, at))
}

impl<T: Bos<str>> Iri<T> {
    /// Converts the IRI to a URI, as `to_uri` does, or returns an error.
    ///
    /// # Errors
    ///
    /// Returns an error only if allocation fails.
    pub fn try_to_uri(&self) -> Result<Uri<String>, AllocError> {
        encoded(self)
    }
}

impl<T: Bos<str>> IriRef<T> {
    /// Converts the IRI reference to a URI reference, as `to_uri_ref` does, or returns an error.
    ///
    /// # Errors
    ///
    /// Returns an error only if allocation fails.
    pub fn try_to_uri_ref(&self) -> Result<UriRef<String>, AllocError> {
        encoded(self)
    }
}

impl Normalizer {
    /// Returns the normal form of a value, as `normalize` does.
    ///
    /// # Errors
    ///
    /// Returns `PathUnderflow` as `normalize` does, and `OutOfMemory` if allocation fails.
    pub fn try_normalize<R>(&self, r: &R) -> Result<R::WithVal<String>, NormalizeError>
    where
        R: RiMaybeRef<Val: Bos<str>>,
    {
        let (text, at) = engine::normalize::<R::Kind, _>(r.parts(), &self.inner())?;
        Ok(R::WithVal::of(text, at))
    }
}

impl<R: Ri<Val: Bos<str>>> Resolver<R> {
    /// Returns the target of a reference against the base, as `resolve` does.
    ///
    /// # Errors
    ///
    /// Returns the errors of `resolve`, and `OutOfMemory` if allocation fails.
    ///
    /// # Panics
    ///
    /// Panics if the base is the default value, which has no scheme.
    pub fn try_resolve<T: Bos<str>>(
        &self,
        reference: &R::Ref<T>,
    ) -> Result<R::WithVal<String>, ResolveError> {
        self.resolved(reference)
    }

    /// Returns the normal form of the target of a reference against the base, as
    /// `resolve_normalized` does.
    ///
    /// # Errors
    ///
    /// Returns the errors of `resolve_normalized`, and `OutOfMemory` if allocation fails.
    ///
    /// # Panics
    ///
    /// Panics if the base is the default value, which has no scheme.
    pub fn try_resolve_normalized<T: Bos<str>>(
        &self,
        reference: &R::Ref<T>,
        normalizer: &Normalizer,
    ) -> Result<R::WithVal<String>, ResolveError> {
        self.resolved_normal(reference, normalizer)
    }
}

impl<R: RiMaybeRef<Val = String>, S: To<End>> Builder<R, S> {
    /// Returns the reference with these components, as `build` does.
    ///
    /// # Errors
    ///
    /// Returns the errors of `build`, and `OutOfMemory` exactly if an allocation of a step failed.
    pub fn try_build(self) -> Result<R, BuildError> {
        self.built()
    }
}

impl<E: Encoder> EStr<E> {
    /// Returns a copy of the text, or an error.
    ///
    /// # Errors
    ///
    /// Returns an error only if allocation fails.
    pub fn try_to_owned(&self) -> Result<EString<E>, AllocError> {
        Ok(EString::of_valid(copy(self.as_str())?))
    }
}

/// Why a text was not decoded.
///
/// # Examples
///
/// ```
/// use fluent_uri::{fallible::DecodeError, pct_enc::{encoder::Path, EStr}};
///
/// let error = EStr::<Path>::new_or_panic("%E9").decode().try_to_string().unwrap_err();
/// assert_eq!(error, DecodeError::NotUtf8(vec![0xE9]));
/// ```
#[derive(Clone, Debug, Eq, PartialEq)]
pub enum DecodeError {
    /// The decoded bytes, which are not UTF-8.
    NotUtf8(Vec<u8>),
    /// Allocation failed.
    OutOfMemory,
}

impl From<EngineDecodeError> for DecodeError {
    fn from(error: EngineDecodeError) -> Self {
        match error {
            EngineDecodeError::NotUtf8(bytes) => Self::NotUtf8(bytes.0),
            EngineDecodeError::OutOfMemory => Self::OutOfMemory,
        }
    }
}

impl fmt::Display for DecodeError {
    fn fmt(&self, f: &mut fmt::Formatter<'_>) -> fmt::Result {
        f.write_str(match self {
            Self::NotUtf8(_) => "decoded bytes are not valid UTF-8",
            Self::OutOfMemory => "out of memory",
        })
    }
}

#[cfg(feature = "impl-error")]
impl core::error::Error for DecodeError {}

impl<'a> Decode<'a> {
    /// Returns the bytes that are left, decoded, as `to_bytes` does, or an error.
    ///
    /// # Errors
    ///
    /// Returns an error only if allocation fails. Without a `%` nothing is allocated.
    pub fn try_to_bytes(self) -> Result<Cow<'a, [u8]>, AllocError> {
        Ok(match self.inner().to_bytes(Global)? {
            CowSlice::Borrowed(bytes) => Cow::Borrowed(bytes),
            CowSlice::Owned(bytes) => Cow::Owned(bytes.0),
        })
    }

    /// Returns the text that is left, decoded, as `to_string` does.
    ///
    /// # Errors
    ///
    /// Returns the decoded bytes if they are not UTF-8, and `OutOfMemory` if allocation fails.
    pub fn try_to_string(self) -> Result<Cow<'a, str>, DecodeError> {
        Ok(cow(self.inner().to_string(Global)?))
    }

    /// Returns the text that is left, decoded, with U+FFFD for each maximal ill-formed part, as
    /// `to_string_lossy` does, or an error.
    ///
    /// # Errors
    ///
    /// Returns an error only if allocation fails.
    pub fn try_to_string_lossy(self) -> Result<Cow<'a, str>, AllocError> {
        Ok(cow(self.inner().to_string_lossy(Global)?))
    }
}
