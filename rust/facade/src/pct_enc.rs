//! Percent-encoded texts (RFC 3986, section 2.1).

pub(crate) mod check;
mod decode;
pub mod encoder;
mod estr;
#[cfg(feature = "alloc")]
mod estring;
mod split;
mod table;

#[cfg(feature = "alloc")]
pub(crate) use decode::cow;
pub use decode::{Decode, DecodedChunk};
pub(crate) use estr::outer;
pub use estr::EStr;
#[cfg(feature = "alloc")]
pub use estring::EString;
pub(crate) use sealed::PathEncoder;
pub use split::Split;
pub use table::Table;

/// What an [`EStr`] may consist of: the characters and octets of a [`Table`].
///
/// An encoder `SubE` is a *sub-encoder* of `E` if `SubE::TABLE` is a subset of `E::TABLE`.
///
/// # Examples
///
/// ```
/// use fluent_uri::pct_enc::{encoder::Path, EString, Encoder, Table};
///
/// struct Segment;
///
/// impl Encoder for Segment {
///     const TABLE: &'static Table = &Path::TABLE.sub(&Table::new(b"/"));
/// }
///
/// let mut path = EString::<Path>::new();
/// path.push('/');
/// path.encode_str::<Segment>("a/b");
/// assert_eq!(path, "/a%2Fb");
/// ```
pub trait Encoder: 'static {
    /// The characters and octets that a text may consist of.
    const TABLE: &'static Table;
}

mod sealed {
    /// An encoder of paths.
    pub trait PathEncoder: super::Encoder {}
}
