//! URIs and IRIs: parsing, building, resolving, normalising and percent-encoding (RFC 3986, RFC
//! 3987).
//!
//! This crate has the API of `fluent-uri` 0.4.1. It stands in for that crate with one line in
//! `Cargo.toml`: `fluent-uri = { package = "fluent-uri-rattle", .. }`.
//!
//! # What is proved
//!
//! The engine's sources are proved in Rattle. A script erases their contracts, and rustc compiles
//! what is left, which is the private module `proved`. The script, two files that stand for
//! Rattle's std, the rest of this crate and rustc are not proved. They are tested against the
//! original.
//!
//! # Terms
//!
//! | Type | Holds | Example |
//! |---|---|---|
//! | [`Uri`] | a URI, which has a scheme (RFC 3986, section 3) | `http://example.com/a` |
//! | [`UriRef`] | a URI, or a relative reference (RFC 3986, section 4.1) | `../a` |
//! | [`Iri`] | a URI that may have characters past ASCII (RFC 3987, section 2.2) | `http://例え.jp/` |
//! | [`IriRef`] | an IRI, or a relative reference with such characters | `../é` |
//!
//! Each of them holds a `&str` or a `String`. A value with a `&str` returns components that live as
//! long as the text, and not as the value.
//!
//! # Examples
//!
//! ```
//! use fluent_uri::{Uri, UriRef};
//!
//! let base = Uri::parse("http://example.com/a/b")?;
//! let target = UriRef::parse("../C?q")?.resolve_against(&base).unwrap();
//! assert_eq!(target.normalize(), "http://example.com/C?q");
//! # Ok::<_, fluent_uri::ParseError>(())
//! ```
//!
//! # Features
//!
//! | Feature | What it adds |
//! |---|---|
//! | `std` (default) | `alloc`, `impl-error`, and [`Authority::socket_addrs`] together with `net` |
//! | `alloc` | owned values, and each call that returns one |
//! | `impl-error` | `Error` for the error types |
//! | `net` | IP addresses in [`Host`], and in [`Builder::host`] |
//! | `serde` | `Serialize` and `Deserialize` for the four types |
//!
//! Without `std` the crate is `no_std`. It needs the crate `alloc` with any features.
//!
//! # Beyond the original
//!
//! | Module | What it has |
//! |---|---|
//! | [`fallible`] | each call that allocates, with an error in place of an abort |
//! | [`relativize`] | the reference that leads from a base to a target |
//! | [`mend`] | the least change that makes a text a reference |
//! | [`rules`] | the rules of schemes, for normal forms |
//! | [`order`] | the order, equivalence and hash of normal forms, which are not made |
//! | [`basic`] | resolving by the algorithm of RFC 3986, section 5.2, as it is printed |
//! | [`query`] | the pairs of a query |
//!
//! [`Authority::socket_addrs`]: component::Authority
//! [`Host`]: component::Host
//! [`Builder::host`]: build::Builder::host
#![no_std]
#![warn(
    missing_debug_implementations,
    missing_docs,
    rust_2018_idioms,
    unreachable_pub,
    clippy::missing_errors_doc,
    clippy::missing_panics_doc,
    clippy::must_use_candidate,
    clippy::semicolon_if_nothing_returned
)]
#![deny(unsafe_code)]

extern crate alloc;
#[cfg(feature = "std")]
extern crate std;

#[cfg(feature = "alloc")]
pub mod basic;
#[cfg(feature = "alloc")]
pub mod build;
pub mod component;
mod convert;
mod engine;
#[cfg(feature = "alloc")]
pub mod fallible;
#[cfg(feature = "alloc")]
pub mod mend;
#[cfg(feature = "alloc")]
pub mod normalize;
#[cfg(feature = "alloc")]
pub mod order;
mod parse;
pub mod pct_enc;
#[allow(clippy::all, clippy::pedantic, missing_debug_implementations, missing_docs)]
#[allow(unreachable_pub, unsafe_code, unstable_name_collisions, unused)]
mod proved;
#[cfg(feature = "alloc")]
pub mod query;
mod reference;
#[cfg(feature = "alloc")]
pub mod relativize;
#[cfg(feature = "alloc")]
pub mod resolve;
#[cfg(feature = "alloc")]
pub mod rules;

pub use convert::ConvertError;
pub use parse::{ParseError, ParseErrorKind};
pub use reference::{Iri, IriRef, Uri, UriRef};
