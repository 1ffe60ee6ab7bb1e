//! The encoders of the components: for each, the characters and octets that it may consist of.

use super::{sealed::PathEncoder, Encoder, Table};
use crate::proved::uri_pct::table as engine;

pub use crate::proved::uri_pct::encoder::{
    Data, Fragment, IData, IFragment, IPath, IQuery, IRegName, IUserinfo, Path, Port, Query,
    RegName, Userinfo,
};

macro_rules! tables {
    ($($encoder:ident => $table:expr;)*) => {
        $(impl Encoder for $encoder {
            const TABLE: &'static Table = &Table::of($table);
        })*
    };
}

tables! {
    Userinfo => engine::USERINFO;
    IUserinfo => engine::IUSERINFO;
    RegName => engine::REG_NAME;
    IRegName => engine::IREG_NAME;
    Port => engine::DIGIT;
    Path => engine::PATH;
    IPath => engine::IPATH;
    Query => engine::QUERY;
    IQuery => engine::IQUERY;
    Fragment => engine::FRAGMENT;
    IFragment => engine::IFRAGMENT;
    Data => engine::UNRESERVED.or_pct_encoded();
    IData => engine::UNRESERVED.or_pct_encoded().or_ucschar();
}

impl PathEncoder for Path {}

impl PathEncoder for IPath {}
