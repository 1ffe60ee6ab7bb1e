//! Texts cut at delimiters.

use super::{estr::outer, EStr, Encoder};
use crate::{engine::Of, proved::uri_pct::split as engine};
use core::{fmt, iter::FusedIterator};

/// An iterator over the substrings of an [`EStr`] between the occurrences of a delimiter, from both
/// ends. [`EStr::split`] returns it.
///
/// # Examples
///
/// ```
/// use fluent_uri::pct_enc::{encoder::Path, EStr};
///
/// let mut segments = EStr::<Path>::new_or_panic("a/b/c").split('/');
/// assert_eq!(segments.next_back().unwrap(), "c");
/// assert_eq!(segments.next().unwrap(), "a");
/// ```
#[derive(Clone)]
#[must_use = "iterators are lazy and do nothing unless consumed"]
pub struct Split<'a, E: Encoder> {
    inner: engine::Split<'a, Of<E>>,
}

impl<'a, E: Encoder> Split<'a, E> {
    pub(crate) fn of(inner: engine::Split<'a, Of<E>>) -> Self {
        Self { inner }
    }
}

/// Prints the substrings that are left.
impl<'a, E: fmt::Debug + Encoder> fmt::Debug for Split<'a, E> {
    fn fmt(&self, f: &mut fmt::Formatter<'_>) -> fmt::Result {
        f.write_str("Split ")?;
        f.debug_list().entries(self.inner.clone().map(outer)).finish()
    }
}

impl<'a, E: Encoder> Iterator for Split<'a, E> {
    type Item = &'a EStr<E>;

    fn next(&mut self) -> Option<&'a EStr<E>> {
        self.inner.next().map(outer)
    }
}

impl<'a, E: Encoder> DoubleEndedIterator for Split<'a, E> {
    fn next_back(&mut self) -> Option<&'a EStr<E>> {
        self.inner.next_back().map(outer)
    }
}

impl<E: Encoder> FusedIterator for Split<'_, E> {}
