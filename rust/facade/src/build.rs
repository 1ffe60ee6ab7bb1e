//! Building references (RFC 3986, section 5.3).

mod host_port;
pub(crate) mod state;

use crate::{
    component::{Authority, Scheme},
    engine::out_of_memory,
    pct_enc::EStr,
    proved::{
        rstd::alloc::Global,
        uri_ops::build::{
            draft::Draft,
            places::{host_place, HostRange},
            BuildError as EngineError,
        },
        uri_parts::packed_positions::PackedPositions,
    },
    reference::RiMaybeRef,
};
use alloc::string::String;
use core::{fmt, marker::PhantomData};
use host_port::{AsHost, AsPort, WithEncoder};
use state::{
    AdvanceTo, AuthorityEnd, AuthorityStart, End, FragmentEnd, HostEnd, PathEnd, PortEnd, QueryEnd,
    SchemeEnd, To, UserinfoEnd,
};

/// Why no reference was built.
///
/// # Examples
///
/// ```
/// use fluent_uri::{build::BuildError, pct_enc::EStr, UriRef};
///
/// let error = UriRef::builder().path(EStr::new_or_panic("//a")).build().unwrap_err();
/// assert_eq!(error, BuildError::PathStartsWithDoubleSlash);
/// ```
#[derive(Clone, Copy, Debug, Eq, PartialEq)]
pub enum BuildError {
    /// There is an authority, and the path is not empty and does not begin with `/` (RFC 3986,
    /// section 3.3).
    NonemptyRootlessPath,
    /// There is no authority, and the path begins with `//` (RFC 3986, section 3.3).
    PathStartsWithDoubleSlash,
    /// There is neither a scheme nor an authority, and the first segment of the path has a `:` (RFC
    /// 3986, section 4.2).
    FirstPathSegmentContainsColon,
}

impl From<BuildError> for EngineError {
    fn from(error: BuildError) -> Self {
        match error {
            BuildError::NonemptyRootlessPath => Self::NonemptyRootlessPath,
            BuildError::PathStartsWithDoubleSlash => Self::PathStartsWithDoubleSlash,
            BuildError::FirstPathSegmentContainsColon => Self::FirstPathSegmentContainsColon,
        }
    }
}

impl fmt::Display for BuildError {
    fn fmt(&self, f: &mut fmt::Formatter<'_>) -> fmt::Result {
        fmt::Display::fmt(&EngineError::from(*self), f)
    }
}

#[cfg(feature = "impl-error")]
impl core::error::Error for BuildError {}

/// A builder of an `R`. The state `S` is the component that was given last.
///
/// The components are given from the first to the last, each at most once. A URI or an IRI needs a
/// scheme, and every reference a path, which may be empty. Within
/// [`authority_with`](Self::authority_with) the host is needed. Else it does not compile.
///
/// # Examples
///
/// ```
/// use fluent_uri::{component::Scheme, pct_enc::EStr, Uri};
///
/// let uri = Uri::builder()
///     .scheme(Scheme::new_or_panic("foo"))
///     .authority_with(|authority| {
///         authority
///             .userinfo(EStr::new_or_panic("user"))
///             .host(EStr::new_or_panic("example.com"))
///             .port(8042)
///     })
///     .path(EStr::new_or_panic("/over/there"))
///     .query(EStr::new_or_panic("name=ferret"))
///     .fragment(EStr::new_or_panic("nose"))
///     .build()
///     .unwrap();
/// assert_eq!(uri, "foo://user@example.com:8042/over/there?name=ferret#nose");
/// ```
#[allow(missing_debug_implementations)]
#[must_use]
pub struct Builder<R, S> {
    draft: Draft,
    state: PhantomData<(R, S)>,
}

impl<R, S> Builder<R, S> {
    pub(crate) fn new() -> Self {
        Self::of(Draft::new(Global))
    }

    fn of(draft: Draft) -> Self {
        Self { draft, state: PhantomData }
    }

    /// Returns the builder in a later state. The components in between are left out.
    ///
    /// # Examples
    ///
    /// ```
    /// use fluent_uri::{pct_enc::EStr, UriRef};
    ///
    /// let host = None;
    /// let builder = match host {
    ///     Some(host) => UriRef::builder().authority_with(|b| b.host(host)),
    ///     None => UriRef::builder().advance(),
    /// };
    /// # let _: Option<&EStr<fluent_uri::pct_enc::encoder::RegName>> = host;
    /// assert_eq!(builder.path(EStr::new_or_panic("/a")).build().unwrap(), "/a");
    /// ```
    pub fn advance<T>(self) -> Builder<R, T>
    where
        S: AdvanceTo<T>,
    {
        Builder::of(self.draft)
    }

    /// Calls a step with the value, if there is one. Without one it only advances the state.
    ///
    /// # Examples
    ///
    /// ```
    /// use fluent_uri::{build::Builder, pct_enc::EStr, UriRef};
    ///
    /// let reference = UriRef::builder()
    ///     .path(EStr::new_or_panic("a"))
    ///     .optional(Builder::query, Some(EStr::new_or_panic("b")))
    ///     .optional(Builder::fragment, None)
    ///     .build()
    ///     .unwrap();
    /// assert_eq!(reference, "a?b");
    /// ```
    pub fn optional<F, V, T>(self, f: F, opt: Option<V>) -> Builder<R, T>
    where
        F: FnOnce(Self, V) -> Builder<R, T>,
        S: AdvanceTo<T>,
    {
        match opt {
            Some(value) => f(self, value),
            None => self.advance(),
        }
    }
}

impl<R, S: To<SchemeEnd>> Builder<R, S> {
    /// Gives the scheme (RFC 3986, section 3.1). It should be in lower case.
    ///
    /// # Examples
    ///
    /// ```
    /// use fluent_uri::{component::Scheme, pct_enc::EStr, Uri};
    ///
    /// let builder = Uri::builder().scheme(Scheme::new_or_panic("mailto"));
    /// assert_eq!(builder.path(EStr::new_or_panic("a@b")).build().unwrap(), "mailto:a@b");
    /// ```
    pub fn scheme(self, scheme: &Scheme) -> Builder<R, SchemeEnd> {
        Builder::of(self.draft.with_scheme(scheme.as_str()))
    }
}

impl<R: RiMaybeRef, S: To<AuthorityStart>> Builder<R, S> {
    /// Gives the authority (RFC 3986, section 3.2) part by part, by a function.
    ///
    /// # Examples
    ///
    /// ```
    /// use fluent_uri::{pct_enc::EStr, UriRef};
    ///
    /// let host = EStr::new_or_panic("a");
    /// let builder = UriRef::builder().authority_with(|b| b.host(host).port(80));
    /// assert_eq!(builder.path(EStr::EMPTY).build().unwrap(), "//a:80");
    /// ```
    pub fn authority_with<F, T>(self, f: F) -> Builder<R, AuthorityEnd>
    where
        F: FnOnce(Builder<R, AuthorityStart>) -> Builder<R, T>,
        T: To<AuthorityEnd>,
    {
        let begun = self.draft.with_authority("", HostRange { start: 0, end: 0 });
        Builder::of(f(Builder::of(begun)).draft)
    }

    /// Gives the authority (RFC 3986, section 3.2): the empty one, or that of another reference.
    ///
    /// # Examples
    ///
    /// ```
    /// use fluent_uri::{component::{Authority, Scheme}, pct_enc::EStr, Uri};
    ///
    /// let scheme = Scheme::new_or_panic("file");
    /// let builder = Uri::builder().scheme(scheme).authority(Authority::EMPTY);
    /// assert_eq!(builder.path(EStr::new_or_panic("/a")).build().unwrap(), "file:///a");
    /// ```
    pub fn authority(
        self,
        authority: Authority<'_, R::UserinfoE, R::RegNameE>,
    ) -> Builder<R, AuthorityEnd> {
        let host = host_place(authority.inner());
        Builder::of(self.draft.with_authority(authority.as_str(), host))
    }
}

impl<R: RiMaybeRef, S: To<UserinfoEnd>> Builder<R, S> {
    /// Gives the userinfo (RFC 3986, section 3.2.1), without its `@`.
    ///
    /// # Examples
    ///
    /// ```
    /// use fluent_uri::{pct_enc::EStr, UriRef};
    ///
    /// let userinfo = EStr::new_or_panic("u");
    /// let builder = UriRef::builder().authority_with(|b| b.userinfo(userinfo).host(EStr::EMPTY));
    /// assert_eq!(builder.path(EStr::EMPTY).build().unwrap(), "//u@");
    /// ```
    pub fn userinfo(self, userinfo: &EStr<R::UserinfoE>) -> Builder<R, UserinfoEnd> {
        Builder::of(self.draft.with_userinfo(userinfo.as_str()))
    }
}

impl<R: RiMaybeRef, S: To<HostEnd>> Builder<R, S> {
    /// Gives the host (RFC 3986, section 3.2.2): a registered name, or with the feature
    /// `net` an `Ipv4Addr`, `Ipv6Addr` or `IpAddr`. A name with the form of an IPv4 address is one.
    /// It should be in lower case.
    ///
    /// # Examples
    ///
    /// ```
    /// use fluent_uri::{component::Host, pct_enc::EStr, UriRef};
    ///
    /// let builder = UriRef::builder().authority_with(|b| b.host(EStr::new_or_panic("127.0.0.1")));
    /// let built = builder.path(EStr::EMPTY).build().unwrap();
    /// assert!(matches!(built.authority().unwrap().host_parsed(), Host::Ipv4 { .. }));
    /// ```
    pub fn host<'a>(self, host: impl AsHost<'a> + WithEncoder<R::RegNameE>) -> Builder<R, HostEnd> {
        Builder::of(host.append(self.draft))
    }
}

impl<R, S: To<PortEnd>> Builder<R, S> {
    /// Gives the port (RFC 3986, section 3.2.3): a `u16` or an `&EStr<Port>`. It should be neither
    /// empty nor the default one.
    ///
    /// # Examples
    ///
    /// ```
    /// use fluent_uri::{pct_enc::EStr, UriRef};
    ///
    /// let port = EStr::new_or_panic("080");
    /// let builder = UriRef::builder().authority_with(|b| b.host(EStr::EMPTY).port(port));
    /// assert_eq!(builder.path(EStr::EMPTY).build().unwrap(), "//:080");
    /// ```
    pub fn port(self, port: impl AsPort) -> Builder<R, PortEnd> {
        Builder::of(port.append(self.draft))
    }
}

impl<R: RiMaybeRef, S: To<PathEnd>> Builder<R, S> {
    /// Gives the path (RFC 3986, section 3.3), which may be empty.
    ///
    /// # Examples
    ///
    /// ```
    /// use fluent_uri::{pct_enc::EStr, UriRef};
    ///
    /// assert_eq!(UriRef::builder().path(EStr::new_or_panic("../a")).build().unwrap(), "../a");
    /// ```
    pub fn path(self, path: &EStr<R::PathE>) -> Builder<R, PathEnd> {
        Builder::of(self.draft.with_path(path.as_str()))
    }
}

impl<R: RiMaybeRef, S: To<QueryEnd>> Builder<R, S> {
    /// Gives the query (RFC 3986, section 3.4), without its `?`.
    ///
    /// # Examples
    ///
    /// ```
    /// use fluent_uri::{pct_enc::EStr, UriRef};
    ///
    /// let builder = UriRef::builder().path(EStr::EMPTY).query(EStr::new_or_panic("a=b"));
    /// assert_eq!(builder.build().unwrap(), "?a=b");
    /// ```
    pub fn query(self, query: &EStr<R::QueryE>) -> Builder<R, QueryEnd> {
        Builder::of(self.draft.with_query(query.as_str()))
    }
}

impl<R: RiMaybeRef, S: To<FragmentEnd>> Builder<R, S> {
    /// Gives the fragment (RFC 3986, section 3.5), without its `#`.
    ///
    /// # Examples
    ///
    /// ```
    /// use fluent_uri::{pct_enc::EStr, UriRef};
    ///
    /// let builder = UriRef::builder().path(EStr::EMPTY).fragment(EStr::new_or_panic("a"));
    /// assert_eq!(builder.build().unwrap(), "#a");
    /// ```
    pub fn fragment(self, fragment: &EStr<R::FragmentE>) -> Builder<R, FragmentEnd> {
        Builder::of(self.draft.with_fragment(fragment.as_str()))
    }
}

impl<R: RiMaybeRef<Val = String>, S: To<End>> Builder<R, S> {
    /// Returns the reference with these components.
    ///
    /// # Errors
    ///
    /// Returns an error if no text has these components: each [`BuildError`] says when.
    ///
    /// # Examples
    ///
    /// ```
    /// use fluent_uri::{build::BuildError, pct_enc::EStr, UriRef};
    ///
    /// assert_eq!(UriRef::builder().path(EStr::new_or_panic("a/b:c")).build().unwrap(), "a/b:c");
    /// let error = UriRef::builder().path(EStr::new_or_panic("a:b")).build().unwrap_err();
    /// assert_eq!(error, BuildError::FirstPathSegmentContainsColon);
    /// ```
    pub fn build(self) -> Result<R, BuildError> {
        self.built().map_err(|error| match error {
            EngineError::NonemptyRootlessPath => BuildError::NonemptyRootlessPath,
            EngineError::PathStartsWithDoubleSlash => BuildError::PathStartsWithDoubleSlash,
            EngineError::FirstPathSegmentContainsColon => BuildError::FirstPathSegmentContainsColon,
            EngineError::OutOfMemory => out_of_memory(),
        })
    }

    pub(crate) fn built(self) -> Result<R, EngineError> {
        if self.draft.failed {
            return Err(EngineError::OutOfMemory);
        }
        match self.draft.refusal() {
            Some(error) => Err(error),
            None => {
                let at = PackedPositions::of(&self.draft.positions());
                Ok(R::of(self.draft.text.0, at))
            }
        }
    }
}
