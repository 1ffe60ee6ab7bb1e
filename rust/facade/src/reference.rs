//! The four types: URIs, URI references, IRIs and IRI references.

mod accessors;
mod impls;
mod owned;
#[cfg(feature = "serde")]
mod serde;

use crate::{
    parse::Parse,
    pct_enc::{
        encoder::{
            Fragment, IFragment, IPath, IQuery, IRegName, IUserinfo, Path, Query, RegName, Userinfo,
        },
        Encoder,
    },
    proved::{
        fluent_uri::roles::RefKind,
        uri_parts::{
            core_text::Core,
            kind::{IriKind, IriRefKind, UriKind, UriRefKind},
            packed_positions::PackedPositions,
        },
    },
};
use borrow_or_share::{BorrowOrShare, Bos};

#[cfg(feature = "alloc")]
use alloc::string::String;

/// What a reference holds: a `&str` or a `String`.
pub trait Value: Default {}

impl Value for &str {}

#[cfg(feature = "alloc")]
impl Value for String {}

/// A URI, a URI reference, an IRI or an IRI reference.
#[cfg_attr(not(feature = "alloc"), allow(dead_code, unreachable_pub))]
pub trait RiMaybeRef: Sized {
    /// What holds the text.
    type Val;

    /// The same type over another holder.
    type WithVal<T>: RiMaybeRef<Val = T>;

    /// The encoder of userinfo.
    type UserinfoE: Encoder;

    /// The encoder of registered names.
    type RegNameE: Encoder;

    /// The encoder of paths.
    type PathE: Encoder;

    /// The encoder of queries.
    type QueryE: Encoder;

    /// The encoder of fragments.
    type FragmentE: Encoder;

    /// The kind of references whose texts are those of this type, or more.
    ///
    /// The engine's calls get this kind. So the default value is of it too: it is the empty text,
    /// which is a reference and no URI.
    #[doc(hidden)]
    type Kind: RefKind;

    /// Returns the value of a text whose components are at these positions.
    #[doc(hidden)]
    fn of(val: Self::Val, at: PackedPositions) -> Self;

    /// Returns the text, and where its components are.
    #[doc(hidden)]
    fn parts(&self) -> (&str, PackedPositions)
    where
        Self::Val: Bos<str>;
}

/// A URI or an IRI.
#[cfg_attr(not(feature = "alloc"), allow(dead_code, unreachable_pub))]
pub trait Ri: RiMaybeRef {
    /// The references that are resolved against this type.
    type Ref<T>: RiMaybeRef<Val = T, Kind = Self::Kind>;
}

/// Returns the positions of the components of the empty text.
fn nowhere() -> PackedPositions {
    Core::<UriRefKind, &str>::empty().packed_positions()
}

macro_rules! reference_types {
    ($(
        $(#[$doc:meta])*
        $Ty:ident = $name:literal, example $example:literal, kind $Kind:ident of $RefKind:ident,
        encoders $UserinfoE:ident $RegNameE:ident $PathE:ident $QueryE:ident $FragmentE:ident;
    )*) => {
        $(
            $(#[$doc])*
            ///
            /// # Comparison
            ///
            /// Values are compared byte by byte. Normal forms are equal exactly if the values are
            /// equivalent.
            ///
            /// # Examples
            ///
            /// A value over a `&str` returns components that live as long as the text:
            ///
            /// ```
            #[doc = concat!("use fluent_uri::", stringify!($Ty), ";")]
            ///
            #[doc = concat!("let text = \"", $example, "\";")]
            #[doc = concat!("let path = ", stringify!($Ty), "::parse(text)?.path();")]
            /// assert_eq!(path, "/over/there");
            ///
            #[doc = concat!(
                "let owned: ", stringify!($Ty), "<String> = ", stringify!($Ty),
                "::parse(text)?.to_owned();"
            )]
            #[doc = concat!("let borrowed: ", stringify!($Ty), "<&str> = owned.borrow();")]
            /// assert_eq!(borrowed, text);
            /// # Ok::<_, fluent_uri::ParseError>(())
            /// ```
            #[derive(Clone, Copy)]
            pub struct $Ty<T> {
                val: T,
                at: PackedPositions,
            }

            impl<T> $Ty<T> {
                #[doc = concat!("Parses a text as ", $name, ", and allocates nothing.")]
                ///
                /// # Errors
                ///
                #[doc = concat!(
                    "Returns an error exactly if the text is not ", $name,
                    ". It says what is wrong, and at which"
                )]
                /// byte. For a `String` the error is a pair, with the text in it.
                ///
                /// # Examples
                ///
                /// ```
                #[doc = concat!("use fluent_uri::", stringify!($Ty), ";")]
                ///
                #[doc = concat!(
                    "assert!(", stringify!($Ty), "::parse(\"", $example, "\").is_ok());"
                )]
                #[doc = concat!(
                    "let (error, text) = ", stringify!($Ty),
                    "::parse(\"a:/b c\".to_string()).unwrap_err();"
                )]
                /// assert_eq!((error.index(), text.as_str()), (4, "a:/b c"));
                /// ```
                #[inline]
                pub fn parse<I>(input: I) -> Result<Self, I::Err>
                where
                    I: Parse<Val = T>,
                {
                    let (val, at) = input.parse::<$Kind>()?;
                    Ok(Self { val, at })
                }
            }

            impl<T> $Ty<T> {
                #[inline]
                pub(crate) fn into_parts(self) -> (T, PackedPositions) {
                    (self.val, self.at)
                }
            }

            impl<T> RiMaybeRef for $Ty<T> {
                type Val = T;
                type WithVal<U> = $Ty<U>;
                type UserinfoE = $UserinfoE;
                type RegNameE = $RegNameE;
                type PathE = $PathE;
                type QueryE = $QueryE;
                type FragmentE = $FragmentE;
                type Kind = $RefKind;

                #[inline]
                fn of(val: T, at: PackedPositions) -> Self {
                    Self { val, at }
                }

                #[inline]
                fn parts(&self) -> (&str, PackedPositions)
                where
                    T: Bos<str>,
                {
                    (self.as_str(), self.at)
                }
            }

            impl<'i, 'o, T: BorrowOrShare<'i, 'o, str>> $Ty<T> {
                /// Returns the text.
                ///
                /// # Examples
                ///
                /// ```
                #[doc = concat!("use fluent_uri::", stringify!($Ty), ";")]
                ///
                #[doc = concat!(
                    "assert_eq!(", stringify!($Ty), "::parse(\"", $example, "\")?.as_str(), \"",
                    $example, "\");"
                )]
                /// # Ok::<_, fluent_uri::ParseError>(())
                /// ```
                #[inline]
                #[must_use]
                pub fn as_str(&'i self) -> &'o str {
                    self.val.borrow_or_share()
                }
            }
        )*
    };
}

reference_types! {
    /// A URI: a text that begins with a scheme (RFC 3986, section 3).
    Uri = "a URI", example "foo://user@example.com:8042/over/there?name=ferret#nose",
    kind UriKind of UriRefKind,
    encoders Userinfo RegName Path Query Fragment;

    /// A URI reference: a URI or a relative reference (RFC 3986, section 4.1).
    UriRef = "a URI reference", example "/over/there?name=ferret#nose",
    kind UriRefKind of UriRefKind,
    encoders Userinfo RegName Path Query Fragment;

    /// An IRI: a URI that may have characters past ASCII (RFC 3987, section 2.2).
    Iri = "an IRI", example "foo://résumé.example.org/over/there?café",
    kind IriKind of IriRefKind,
    encoders IUserinfo IRegName IPath IQuery IFragment;

    /// An IRI reference: an IRI, or a relative reference with such characters (RFC 3987, section
    /// 2.2).
    IriRef = "an IRI reference", example "/over/there?café",
    kind IriRefKind of IriRefKind,
    encoders IUserinfo IRegName IPath IQuery IFragment;
}

impl<T> Ri for Uri<T> {
    type Ref<U> = UriRef<U>;
}

impl<T> Ri for Iri<T> {
    type Ref<U> = IriRef<U>;
}
