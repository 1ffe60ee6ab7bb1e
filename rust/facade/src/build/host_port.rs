//! Hosts and ports as a builder takes them (RFC 3986, sections 3.2.2 and 3.2.3).

use crate::{
    pct_enc::{
        encoder::{IRegName, Port, RegName},
        EStr,
    },
    proved::{
        uri_ops::build::draft::Draft,
        uri_pct::{encoder as engine, pct_enc as texts},
    },
};

#[cfg(feature = "net")]
use {
    crate::{pct_enc::Encoder, proved::uri_parts::net as addresses},
    core::net::{IpAddr, Ipv4Addr, Ipv6Addr},
};

/// A host: an IP address or a registered name.
pub trait AsHost<'a> {
    /// Appends the host to the authority that was begun.
    #[doc(hidden)]
    fn append(self, draft: Draft) -> Draft;
}

/// A host of the references whose registered names are `E`'s.
pub trait WithEncoder<E> {}

macro_rules! names {
    ($($E:ident)*) => {
        $(
            impl<'a> AsHost<'a> for &'a EStr<$E> {
                fn append(self, draft: Draft) -> Draft {
                    let name = texts::EStr::<engine::$E>::new_or_panic(self.as_str());
                    draft.with_host::<engine::$E, _>(name)
                }
            }

            impl WithEncoder<$E> for &EStr<$E> {}
        )*
    };
}

names! { RegName IRegName }

#[cfg(feature = "net")]
macro_rules! addresses {
    ($($Address:ident)*) => {
        $(
            impl<'a> AsHost<'a> for $Address {
                fn append(self, draft: Draft) -> Draft {
                    draft.with_host::<engine::RegName, _>(addresses::$Address::from(self))
                }
            }

            impl<E: Encoder> WithEncoder<E> for $Address {}
        )*
    };
}

#[cfg(feature = "net")]
addresses! { Ipv4Addr Ipv6Addr IpAddr }

/// A port: a number, or digits.
pub trait AsPort {
    /// Appends the port to the authority.
    #[doc(hidden)]
    fn append(self, draft: Draft) -> Draft;
}

impl AsPort for u16 {
    fn append(self, draft: Draft) -> Draft {
        draft.with_port(self)
    }
}

impl AsPort for &EStr<Port> {
    fn append(self, draft: Draft) -> Draft {
        draft.with_port(texts::EStr::<engine::Port>::new_or_panic(self.as_str()))
    }
}
