//! Authorities and hosts.

use crate::{
    engine::Of,
    pct_enc::{
        encoder::{Port, RegName, Userinfo},
        outer, EStr, Encoder,
    },
    proved::uri_parts::{component as engine, positions::AuthorityPositions},
};
use core::{fmt, marker::PhantomData, num::ParseIntError};

#[cfg(feature = "net")]
use core::net::{Ipv4Addr, Ipv6Addr};
#[cfg(all(feature = "net", feature = "std"))]
use {
    crate::proved::{rstd::alloc::Global, uri_parts::component::SocketTarget},
    alloc::{string::ToString, vec},
    std::{
        io,
        net::{SocketAddr, ToSocketAddrs},
    },
};

/// An authority: userinfo, host and port (RFC 3986, section 3.2).
///
/// # Examples
///
/// ```
/// use fluent_uri::Uri;
///
/// let authority = Uri::parse("http://user@example.com:8042/")?.authority().unwrap();
/// assert_eq!(authority.userinfo().unwrap(), "user");
/// assert_eq!(authority.host(), "example.com");
/// assert_eq!(authority.port_to_u16(), Ok(Some(8042)));
/// # Ok::<_, fluent_uri::ParseError>(())
/// ```
#[derive(Clone, Copy)]
pub struct Authority<'a, UserinfoE = Userinfo, RegNameE = RegName> {
    text: &'a str,
    host_start: usize,
    host_end: usize,
    encoders: PhantomData<(UserinfoE, RegNameE)>,
}

impl<'a, UserinfoE: Encoder, RegNameE: Encoder> Authority<'a, UserinfoE, RegNameE> {
    /// The empty authority: an empty host alone.
    ///
    /// # Examples
    ///
    /// ```
    /// use fluent_uri::component::Authority;
    ///
    /// assert_eq!(Authority::EMPTY.to_string(), "");
    /// ```
    pub const EMPTY: Authority<'static, UserinfoE, RegNameE> =
        Authority { text: "", host_start: 0, host_end: 0, encoders: PhantomData };

    /// Returns the authority of a whole text in which it is there.
    pub(crate) fn of(text: &'a str, at: AuthorityPositions) -> Self {
        Self {
            text: &text[at.start..at.end],
            host_start: at.host_start - at.start,
            host_end: at.host_end - at.start,
            encoders: PhantomData,
        }
    }

    pub(crate) fn inner(&self) -> engine::Authority<'a, Of<UserinfoE>, Of<RegNameE>> {
        engine::Authority::new_unchecked(self.text, self.host_start, self.host_end)
    }

    /// Returns the text, without the `//` before it.
    ///
    /// # Examples
    ///
    /// ```
    /// use fluent_uri::Uri;
    ///
    /// assert_eq!(Uri::parse("http://user@a:80/")?.authority().unwrap().as_str(), "user@a:80");
    /// # Ok::<_, fluent_uri::ParseError>(())
    /// ```
    #[inline]
    #[must_use]
    pub fn as_str(&self) -> &'a str {
        self.text
    }

    /// Returns the userinfo without its `@`, if there is one (RFC 3986, section 3.2.1).
    ///
    /// # Examples
    ///
    /// ```
    /// use fluent_uri::Uri;
    ///
    /// assert_eq!(Uri::parse("http://user@a")?.authority().unwrap().userinfo().unwrap(), "user");
    /// assert!(Uri::parse("http://a")?.authority().unwrap().userinfo().is_none());
    /// # Ok::<_, fluent_uri::ParseError>(())
    /// ```
    #[must_use]
    pub fn userinfo(&self) -> Option<&'a EStr<UserinfoE>> {
        self.inner().userinfo().map(outer)
    }

    /// Returns the host, with its brackets if it has some (RFC 3986, section 3.2.2). It may be
    /// empty.
    ///
    /// # Examples
    ///
    /// ```
    /// use fluent_uri::Uri;
    ///
    /// assert_eq!(Uri::parse("http://[::1]:80/")?.authority().unwrap().host(), "[::1]");
    /// assert_eq!(Uri::parse("file:///a")?.authority().unwrap().host(), "");
    /// # Ok::<_, fluent_uri::ParseError>(())
    /// ```
    #[must_use]
    pub fn host(&self) -> &'a str {
        self.inner().host()
    }

    /// Returns the host by its kind: an address with its numbers, or a registered name.
    ///
    /// # Examples
    ///
    /// ```
    /// use fluent_uri::{component::Host, Uri};
    ///
    /// let authority = Uri::parse("http://127.0.0.1/")?.authority().unwrap();
    /// assert!(matches!(authority.host_parsed(), Host::Ipv4 { .. }));
    /// let authority = Uri::parse("http://127.1/")?.authority().unwrap();
    /// assert!(matches!(authority.host_parsed(), Host::RegName(name) if name == "127.1"));
    /// # Ok::<_, fluent_uri::ParseError>(())
    /// ```
    #[must_use]
    pub fn host_parsed(&self) -> Host<'a, RegNameE> {
        match self.inner().host_parsed() {
            #[cfg(feature = "net")]
            engine::HostOf::Ipv4(address) => Host::Ipv4(address.to_std()),
            #[cfg(feature = "net")]
            engine::HostOf::Ipv6(address) => Host::Ipv6(address.to_std()),
            #[cfg(not(feature = "net"))]
            engine::HostOf::Ipv4(_) => Host::Ipv4(),
            #[cfg(not(feature = "net"))]
            engine::HostOf::Ipv6(_) => Host::Ipv6(),
            engine::HostOf::IpvFuture => Host::IpvFuture,
            engine::HostOf::RegName(name) => Host::RegName(outer(name)),
        }
    }

    /// Returns the port without its `:`, if there is one (RFC 3986, section 3.2.3).
    ///
    /// It may be empty, have leading zeros, or be over 65535.
    ///
    /// # Examples
    ///
    /// ```
    /// use fluent_uri::Uri;
    ///
    /// assert_eq!(Uri::parse("http://a:080/")?.authority().unwrap().port().unwrap(), "080");
    /// assert_eq!(Uri::parse("http://a:/")?.authority().unwrap().port().unwrap(), "");
    /// assert!(Uri::parse("http://a/")?.authority().unwrap().port().is_none());
    /// # Ok::<_, fluent_uri::ParseError>(())
    /// ```
    #[must_use]
    pub fn port(&self) -> Option<&'a EStr<Port>> {
        self.inner().port().map(|port| EStr::of_valid(port.as_str()))
    }

    /// Returns the port as a number, or `None` if it is absent or empty. Leading zeros make no
    /// difference.
    ///
    /// # Errors
    ///
    /// Returns an error exactly if the number is over 65535.
    ///
    /// # Examples
    ///
    /// ```
    /// use fluent_uri::Uri;
    ///
    /// assert_eq!(Uri::parse("http://a:080/")?.authority().unwrap().port_to_u16(), Ok(Some(80)));
    /// assert_eq!(Uri::parse("http://a:/")?.authority().unwrap().port_to_u16(), Ok(None));
    /// assert!(Uri::parse("http://a:65536/")?.authority().unwrap().port_to_u16().is_err());
    /// # Ok::<_, fluent_uri::ParseError>(())
    /// ```
    pub fn port_to_u16(&self) -> Result<Option<u16>, ParseIntError> {
        self.inner().port_to_u16()
    }

    /// Returns the addresses of the host, each with the port. If the port is absent or empty, it is
    /// the given one. A registered name is decoded and looked up ([`ToSocketAddrs`]), without
    /// Punycode.
    ///
    /// # Errors
    ///
    /// Returns an error if the port is over 65535, if the host is an address of a later version, or
    /// if a registered name does not decode to UTF-8 or is not found.
    ///
    /// # Examples
    ///
    /// ```
    /// use fluent_uri::Uri;
    ///
    /// let authority = Uri::parse("http://[::1]/")?.authority().unwrap();
    /// assert_eq!(authority.socket_addrs(80)?.next().unwrap().to_string(), "[::1]:80");
    /// # Ok::<_, Box<dyn std::error::Error>>(())
    /// ```
    #[cfg(all(feature = "net", feature = "std"))]
    pub fn socket_addrs(
        &self,
        default_port: u16,
    ) -> io::Result<impl Iterator<Item = SocketAddr> + use<UserinfoE, RegNameE>> {
        let target = match self.inner().socket_target(Global, default_port) {
            Ok(target) => target,
            Err(error) => {
                return Err(io::Error::new(io::ErrorKind::InvalidInput, error.to_string()));
            }
        };
        let address = match target {
            SocketTarget::V4(address, port) => SocketAddr::from((address.to_std(), port)),
            SocketTarget::V6(address, port) => SocketAddr::from((address.to_std(), port)),
            SocketTarget::Name(name, port) => return (name.as_str(), port).to_socket_addrs(),
        };
        Ok(vec![address].into_iter())
    }

    /// Returns whether there is a userinfo, which may be empty.
    ///
    /// # Examples
    ///
    /// ```
    /// use fluent_uri::Uri;
    ///
    /// assert!(Uri::parse("http://@a")?.authority().unwrap().has_userinfo());
    /// assert!(!Uri::parse("http://a")?.authority().unwrap().has_userinfo());
    /// # Ok::<_, fluent_uri::ParseError>(())
    /// ```
    #[inline]
    #[must_use]
    pub fn has_userinfo(&self) -> bool {
        self.inner().has_userinfo()
    }

    /// Returns whether there is a port, which may be empty.
    ///
    /// # Examples
    ///
    /// ```
    /// use fluent_uri::Uri;
    ///
    /// assert!(Uri::parse("http://a:")?.authority().unwrap().has_port());
    /// assert!(!Uri::parse("http://a")?.authority().unwrap().has_port());
    /// # Ok::<_, fluent_uri::ParseError>(())
    /// ```
    #[inline]
    #[must_use]
    pub fn has_port(&self) -> bool {
        self.inner().has_port()
    }
}

/// Prints each component with its name, and the host by its kind too.
impl<UserinfoE: Encoder, RegNameE: Encoder> fmt::Debug for Authority<'_, UserinfoE, RegNameE> {
    fn fmt(&self, f: &mut fmt::Formatter<'_>) -> fmt::Result {
        f.debug_struct("Authority")
            .field("userinfo", &self.userinfo())
            .field("host", &self.host())
            .field("host_parsed", &self.host_parsed())
            .field("port", &self.port())
            .finish()
    }
}

impl fmt::Display for Authority<'_> {
    fn fmt(&self, f: &mut fmt::Formatter<'_>) -> fmt::Result {
        fmt::Display::fmt(self.text, f)
    }
}

/// A host by its kind (RFC 3986, section 3.2.2).
///
/// # Examples
///
/// ```
/// use fluent_uri::{component::Host, Uri};
///
/// let authority = Uri::parse("http://example.com/")?.authority().unwrap();
/// assert!(matches!(authority.host_parsed(), Host::RegName(name) if name == "example.com"));
/// # Ok::<_, fluent_uri::ParseError>(())
/// ```
#[derive(Clone, Copy)]
pub enum Host<'a, RegNameE: Encoder = RegName> {
    /// An IPv4 address.
    #[cfg_attr(not(feature = "net"), non_exhaustive)]
    Ipv4(
        /// The address.
        #[cfg(feature = "net")]
        Ipv4Addr,
    ),
    /// An IPv6 address, in brackets.
    #[cfg_attr(not(feature = "net"), non_exhaustive)]
    Ipv6(
        /// The address.
        #[cfg(feature = "net")]
        Ipv6Addr,
    ),
    /// An address of a later version, in brackets.
    #[non_exhaustive]
    IpvFuture,
    /// A registered name, which may be empty. The case of its ASCII letters makes no difference.
    RegName(&'a EStr<RegNameE>),
}

impl<RegNameE: Encoder> fmt::Debug for Host<'_, RegNameE> {
    fn fmt(&self, f: &mut fmt::Formatter<'_>) -> fmt::Result {
        match self {
            #[cfg(feature = "net")]
            Self::Ipv4(address) => f.debug_tuple("Ipv4").field(address).finish(),
            #[cfg(feature = "net")]
            Self::Ipv6(address) => f.debug_tuple("Ipv6").field(address).finish(),
            #[cfg(not(feature = "net"))]
            Self::Ipv4() => f.debug_struct("Ipv4").finish_non_exhaustive(),
            #[cfg(not(feature = "net"))]
            Self::Ipv6() => f.debug_struct("Ipv6").finish_non_exhaustive(),
            Self::IpvFuture => f.debug_struct("IpvFuture").finish_non_exhaustive(),
            Self::RegName(name) => f.debug_tuple("RegName").field(name).finish(),
        }
    }
}
