//! The library's proved sources, erased to Rust, over a shim of two files. `rust/erase.py` writes
//! these modules. Their contracts are proved of the sources, by Rattle, and not of this crate.

pub mod fluent_uri;
pub mod lanes16;
pub mod rstd;
pub mod uri_basic;
pub mod uri_mend;
pub mod uri_ops;
pub mod uri_order;
pub mod uri_parts;
pub mod uri_pct;
pub mod uri_query;
pub mod uri_relative;
