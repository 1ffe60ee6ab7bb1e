//! The rules of schemes (RFC 3986, section 6.2.3): default ports, empty paths and default hosts.

use crate::{
    component::Scheme,
    proved::{uri_ops::scheme_rules as engine, uri_parts::scheme as parts},
};

/// The rules of schemes, each a function of the scheme. For equal schemes a function must return
/// the same.
///
/// # Examples
///
/// ```
/// use fluent_uri::{normalize::Normalizer, rules::SchemeRules, Uri};
///
/// let roots = SchemeRules { empty_path_is_root: |_| true, ..SchemeRules::DEFAULT_PORTS };
/// let normalizer = Normalizer::new().scheme_rules_with(roots);
/// assert_eq!(normalizer.normalize(&Uri::parse("foo://a")?).unwrap(), "foo://a/");
/// # Ok::<_, fluent_uri::ParseError>(())
/// ```
#[allow(missing_debug_implementations)]
#[derive(Clone, Copy)]
pub struct SchemeRules {
    /// Returns the default port of the scheme, if it has one.
    pub default_port: fn(&Scheme) -> Option<u16>,
    /// Returns whether an empty path after an authority is equivalent to `/` under the scheme.
    pub empty_path_is_root: fn(&Scheme) -> bool,
    /// Returns whether the default host of the scheme is
    /// `localhost`: an authority that is `localhost` alone is equivalent to an empty one.
    pub default_host_is_localhost: fn(&Scheme) -> bool,
}

impl SchemeRules {
    /// The ports of [`Scheme::default_port`], and no other rules.
    pub const DEFAULT_PORTS: Self = Self {
        default_port: Scheme::default_port,
        empty_path_is_root: |_| false,
        default_host_is_localhost: |_| false,
    };

    /// The ports of [`Scheme::default_port`], and the rules that the registered documents of
    /// schemes give.
    ///
    /// | Schemes | Rule | Document |
    /// |---|---|---|
    /// | `http`, `https` | an empty path after an authority is `/` | RFC 9110, section 4.2.3 |
    /// | `ws`, `wss` | the same | RFC 6455, section 3 |
    /// | `coap`, `coaps` | the same | RFC 7252, section 6.3 |
    /// | `coap+tcp`, `coaps+tcp`, `coap+ws`, `coaps+ws` | the same | RFC 8323, section 8.6 |
    /// | `ftp` | the same | RFC 1738, section 3.2.2 |
    /// | `gopher` | the same | RFC 4266, section 2.1 |
    /// | `imap` | the same | RFC 5092, section 4 |
    /// | `ipp` | the same | RFC 3510, section 4.7 |
    /// | `ipps` | the same | RFC 7472, section 4.6 |
    /// | `ldap` | the same | RFC 4516, section 4 |
    /// | `nfs` | the same | RFC 2224, section 1 |
    /// | `snmp` | the same | RFC 4088, section 3 |
    /// | `telnet` | the same | RFC 4248, section 2 |
    /// | `tn3270` | the same | RFC 6270, section 2.1 |
    /// | `file` | the host `localhost` is left out | RFC 8089, section 2 |
    ///
    /// Rules on the text of a path or a query are not applied: `mailto:Joe@Example.COM` stays as it
    /// is.
    ///
    /// The target of an
    /// `OPTIONS` request must not be normalised by them: there an empty path is not `/`.
    ///
    /// # Examples
    ///
    /// ```
    /// use fluent_uri::{normalize::Normalizer, rules::SchemeRules, Uri};
    ///
    /// let normalizer = Normalizer::new().scheme_rules_with(SchemeRules::STANDARD);
    /// assert_eq!(normalizer.normalize(&Uri::parse("HTTP://a:80")?).unwrap(), "http://a/");
    /// assert_eq!(normalizer.normalize(&Uri::parse("file://localhost/a")?).unwrap(), "file:///a");
    /// # Ok::<_, fluent_uri::ParseError>(())
    /// ```
    pub const STANDARD: Self = Self {
        default_port: Scheme::default_port,
        empty_path_is_root: |scheme| {
            engine::SchemeRules::empty_path_is_root(&engine::StandardRules, scheme.inner())
        },
        default_host_is_localhost: |scheme| {
            engine::SchemeRules::default_host_is_localhost(&engine::StandardRules, scheme.inner())
        },
    };
}

impl engine::SchemeRules for SchemeRules {
    fn default_port(&self, scheme: parts::Scheme<'_>) -> Option<u16> {
        (self.default_port)(Scheme::of_valid(scheme.as_str()))
    }

    fn empty_path_is_root(&self, scheme: parts::Scheme<'_>) -> bool {
        (self.empty_path_is_root)(Scheme::of_valid(scheme.as_str()))
    }

    fn default_host_is_localhost(&self, scheme: parts::Scheme<'_>) -> bool {
        (self.default_host_is_localhost)(Scheme::of_valid(scheme.as_str()))
    }
}
