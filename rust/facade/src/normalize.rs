//! Normalising (RFC 3986, sections 6.2.2 and 6.2.3; RFC 3987, section 5.3.2).

use crate::{
    component::Scheme,
    engine::out_of_memory,
    proved::uri_ops::normalize as proved,
    reference::RiMaybeRef,
    rules::SchemeRules,
};
use alloc::string::String;
use borrow_or_share::Bos;
use core::fmt;

/// Why a value was not normalised.
///
/// # Examples
///
/// ```
/// use fluent_uri::{normalize::{NormalizeError, Normalizer}, Uri};
///
/// let strict = Normalizer::new().allow_path_underflow(false);
/// let error = strict.normalize(&Uri::parse("http://a/../b")?).unwrap_err();
/// assert_eq!(error, NormalizeError::PathUnderflow);
/// # Ok::<_, fluent_uri::ParseError>(())
/// ```
#[derive(Clone, Copy, Debug, Eq, PartialEq)]
pub enum NormalizeError {
    /// A double dot had no segment left to remove, and the normaliser does not allow this.
    PathUnderflow,
}

impl fmt::Display for NormalizeError {
    fn fmt(&self, f: &mut fmt::Formatter<'_>) -> fmt::Result {
        fmt::Display::fmt(&proved::NormalizeError::PathUnderflow, f)
    }
}

#[cfg(feature = "impl-error")]
impl core::error::Error for NormalizeError {}

/// What normalises values, by its settings: whether dot segments may underflow, and the rules of
/// schemes, such as their default ports.
///
/// # Examples
///
/// ```
/// use fluent_uri::{normalize::Normalizer, Uri};
///
/// let value = Uri::parse("HTTP://a:80/%7e")?;
/// assert_eq!(Normalizer::new().normalize(&value).unwrap(), "http://a/~");
/// # Ok::<_, fluent_uri::ParseError>(())
/// ```
#[allow(missing_debug_implementations)]
#[derive(Clone, Copy)]
#[must_use]
pub struct Normalizer {
    allow_path_underflow: bool,
    rules: SchemeRules,
}

impl Normalizer {
    /// Returns a normaliser under [`SchemeRules::DEFAULT_PORTS`], where dot segments may underflow.
    ///
    /// # Examples
    ///
    /// ```
    /// use fluent_uri::{normalize::Normalizer, Uri};
    ///
    /// let value = Uri::parse("http://a:80/../b")?;
    /// assert_eq!(Normalizer::new().normalize(&value).unwrap(), "http://a/b");
    /// # Ok::<_, fluent_uri::ParseError>(())
    /// ```
    pub fn new() -> Self {
        Self { allow_path_underflow: true, rules: SchemeRules::DEFAULT_PORTS }
    }

    /// Sets whether dot segments may underflow. If not, a double dot with no segment left to remove
    /// is an error, and not dropped as by RFC 3986, section 5.2.4.
    ///
    /// # Examples
    ///
    /// ```
    /// use fluent_uri::{normalize::Normalizer, Uri};
    ///
    /// let strict = Normalizer::new().allow_path_underflow(false);
    /// assert!(strict.normalize(&Uri::parse("http://a/..")?).is_err());
    /// # Ok::<_, fluent_uri::ParseError>(())
    /// ```
    pub fn allow_path_underflow(self, value: bool) -> Self {
        Self { allow_path_underflow: value, ..self }
    }

    /// Sets the default ports of schemes (RFC 3986, section 6.2.3). For equal schemes the function
    /// must return the same port.
    ///
    /// # Examples
    ///
    /// ```
    /// use fluent_uri::{normalize::Normalizer, Uri};
    ///
    /// let normalizer = Normalizer::new().default_port_with(|_| Some(4673));
    /// assert_eq!(normalizer.normalize(&Uri::parse("foo://a:4673")?).unwrap(), "foo://a");
    /// # Ok::<_, fluent_uri::ParseError>(())
    /// ```
    pub fn default_port_with(mut self, f: fn(&Scheme) -> Option<u16>) -> Self {
        self.rules.default_port = f;
        self
    }

    /// Sets the rules of schemes (RFC 3986, section 6.2.3).
    ///
    /// # Examples
    ///
    /// ```
    /// use fluent_uri::{normalize::Normalizer, rules::SchemeRules, Uri};
    ///
    /// let normalizer = Normalizer::new().scheme_rules_with(SchemeRules::STANDARD);
    /// assert_eq!(normalizer.normalize(&Uri::parse("wss://A:443?q")?).unwrap(), "wss://a/?q");
    /// # Ok::<_, fluent_uri::ParseError>(())
    /// ```
    pub fn scheme_rules_with(self, rules: SchemeRules) -> Self {
        Self { rules, ..self }
    }

    /// Returns the normal form of a value, as [`Uri::normalize`](crate::Uri::normalize) does, by
    /// the settings. Two values have the same one exactly if they are equivalent under the rules.
    ///
    /// # Errors
    ///
    /// Returns [`PathUnderflow`](NormalizeError::PathUnderflow) if underflow is not allowed, and
    /// with a scheme a double dot of a path that begins with `/` has no segment left to remove.
    ///
    /// # Examples
    ///
    /// ```
    /// use fluent_uri::{normalize::Normalizer, IriRef};
    ///
    /// let value = IriRef::parse("%c3%a9%2f")?;
    /// assert_eq!(Normalizer::new().normalize(&value).unwrap(), "é%2F");
    /// # Ok::<_, fluent_uri::ParseError>(())
    /// ```
    pub fn normalize<R: RiMaybeRef>(&self, r: &R) -> Result<R::WithVal<String>, NormalizeError>
    where
        R::Val: Bos<str>,
    {
        self.try_normalize(r).map_err(|error| match error {
            proved::NormalizeError::PathUnderflow => NormalizeError::PathUnderflow,
            proved::NormalizeError::OutOfMemory => out_of_memory(),
        })
    }

    pub(crate) fn inner(&self) -> proved::Normalizer<SchemeRules> {
        proved::Normalizer::new()
            .allow_path_underflow(self.allow_path_underflow)
            .scheme_rules_with(self.rules)
    }
}

impl Default for Normalizer {
    fn default() -> Self {
        Self::new()
    }
}
