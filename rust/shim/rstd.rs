//! What the erased sources name of Rattle's std and Rust's std lacks, or has in another form.
//!
//! An allocation that fails is an error, as it is there: nothing panics or aborts for want of memory.

/// Names that each erased file has in the place of Rust's.
pub mod prelude {
    pub(crate) use super::prove;
    pub use super::{Drop, FromSegments, ParseAscii, String, Vec};
    // Since 1.87 the type has these functions too.
    pub use core::str;
}

#[cfg(not(target_pointer_width = "64"))]
compile_error!("the proofs of the erased sources count on a `usize` of 64 bits");

pub use core::{cmp, error, fmt, hash, iter, marker, mem, net, num, str};

use self::alloc::{AllocError, Global};
use ::alloc as rust;

pub mod alloc {
    /// The error of an allocation that failed.
    #[derive(Clone, Copy, Debug, PartialEq, Eq)]
    pub struct AllocError;

    impl core::fmt::Display for AllocError {
        fn fmt(&self, f: &mut core::fmt::Formatter<'_>) -> core::fmt::Result {
            f.write_str("out of memory")
        }
    }

    impl core::error::Error for AllocError {}

    /// The allocator, which each call that makes a collection is passed.
    #[derive(Clone, Copy, Debug)]
    pub struct Global;
}

pub mod convert {
    pub use core::convert::*;

    /// A text, borrowed or owned.
    pub trait AsStr {
        fn as_str(&self) -> &str;
    }

    impl AsStr for &str {
        #[inline(always)]
        fn as_str(&self) -> &str {
            self
        }
    }

    impl AsStr for super::String {
        #[inline(always)]
        fn as_str(&self) -> &str {
            super::String::as_str(self)
        }
    }
}

pub mod simd {
    pub mod prelude {
        pub use crate::proved::lanes16::{u64x2, u8x16, u8x64};
    }
}

/// In Rattle, that a value may be dropped. In Rust every value may.
pub trait Drop {}

impl<T: ?Sized> Drop for T {}

/// What Rattle proves, a debug build tests.
macro_rules! prove {
    ($($condition:tt)*) => { debug_assert!($($condition)*) };
}
pub(crate) use prove;

/// A function of Rust's std that is unstable.
pub trait ParseAscii: Sized {
    fn parse_ascii(bytes: &[u8]) -> Result<Self, net::AddrParseError>;
}

impl ParseAscii for net::Ipv4Addr {
    #[inline]
    fn parse_ascii(bytes: &[u8]) -> Result<Self, net::AddrParseError> {
        // No address has bytes that are not UTF-8, and the empty text is no address.
        str::from_utf8(bytes).unwrap_or_default().parse()
    }
}

/// A function that Rust's std has since 1.91.
pub trait FromSegments {
    fn from_segments(segments: [u16; 8]) -> Self;
}

impl FromSegments for net::Ipv6Addr {
    #[inline]
    fn from_segments(segments: [u16; 8]) -> Self {
        segments.into()
    }
}

#[inline(always)]
fn allocated<T, E>(result: Result<T, E>) -> Result<T, AllocError> {
    result.map_err(|_| AllocError)
}

/// A text that grows, whose calls return an error where memory is denied.
#[derive(Debug)]
#[repr(transparent)]
pub struct String(pub rust::string::String);

impl String {
    #[inline(always)]
    pub fn new(_: Global) -> String {
        String(rust::string::String::new())
    }

    #[inline]
    pub fn with_capacity(_: Global, capacity: usize) -> Result<String, AllocError> {
        let mut text = rust::string::String::new();
        allocated(text.try_reserve_exact(capacity))?;
        Ok(String(text))
    }

    #[inline]
    pub fn from_str(alloc: Global, text: &str) -> Result<String, AllocError> {
        let mut made = String::with_capacity(alloc, text.len())?;
        made.0.push_str(text);
        Ok(made)
    }

    #[inline]
    pub fn from_utf8(bytes: Vec<u8>) -> Result<String, FromUtf8Error> {
        match rust::string::String::from_utf8(bytes.0) {
            Ok(text) => Ok(String(text)),
            Err(error) => Err(FromUtf8Error(error.into_bytes())),
        }
    }

    /// # Safety
    ///
    /// The bytes are UTF-8.
    #[inline(always)]
    pub unsafe fn from_utf8_unchecked(bytes: Vec<u8>) -> String {
        // SAFETY: this is what the caller owes.
        String(unsafe { rust::string::String::from_utf8_unchecked(bytes.0) })
    }

    #[inline(always)]
    pub fn as_str(&self) -> &str {
        self.0.as_str()
    }

    #[inline(always)]
    pub fn allocator(&self) -> &Global {
        &Global
    }

    #[inline(always)]
    pub fn capacity(&self) -> usize {
        self.0.capacity()
    }

    #[inline(always)]
    pub fn into_bytes(self) -> Vec<u8> {
        Vec(self.0.into_bytes())
    }

    #[inline(always)]
    pub fn clear(&mut self) {
        self.0.clear();
    }

    #[inline(always)]
    pub fn truncate(&mut self, len: usize) {
        self.0.truncate(len);
    }

    #[inline(always)]
    pub fn reserve(&mut self, additional: usize) -> Result<(), AllocError> {
        allocated(self.0.try_reserve(additional))
    }

    #[inline(always)]
    pub fn push(&mut self, ch: char) -> Result<(), AllocError> {
        self.reserve(ch.len_utf8())?;
        self.0.push(ch);
        Ok(())
    }

    #[inline(always)]
    pub fn push_str(&mut self, text: &str) -> Result<(), AllocError> {
        self.reserve(text.len())?;
        self.0.push_str(text);
        Ok(())
    }

    pub fn insert_str(&mut self, at: usize, text: &str) -> Result<(), AllocError> {
        self.reserve(text.len())?;
        self.0.insert_str(at, text);
        Ok(())
    }

    pub fn replace_range(
        &mut self,
        range: core::ops::Range<usize>,
        with: &str,
    ) -> Result<(), AllocError> {
        self.reserve(with.len())?;
        self.0.replace_range(range, with);
        Ok(())
    }

    pub fn split_off(&mut self, at: usize) -> Result<String, AllocError> {
        let tail = String::from_str(Global, &self.0[at..])?;
        self.0.truncate(at);
        Ok(tail)
    }

    /// What `write!` calls.
    pub fn write_fmt(&mut self, args: fmt::Arguments<'_>) -> Result<(), AllocError> {
        struct Writer<'a>(&'a mut String);

        impl fmt::Write for Writer<'_> {
            fn write_str(&mut self, text: &str) -> fmt::Result {
                self.0.push_str(text).map_err(|_| fmt::Error)
            }
        }

        allocated(fmt::Write::write_fmt(&mut Writer(self), args))
    }
}

impl core::ops::Deref for String {
    type Target = str;

    #[inline(always)]
    fn deref(&self) -> &str {
        &self.0
    }
}

/// The bytes that are not UTF-8.
pub struct FromUtf8Error(rust::vec::Vec<u8>);

impl FromUtf8Error {
    pub fn into_bytes(self) -> Vec<u8> {
        Vec(self.0)
    }
}

/// Items that grow, whose calls return an error where memory is denied.
#[derive(Debug)]
#[repr(transparent)]
pub struct Vec<T>(pub rust::vec::Vec<T>);

impl<T> Vec<T> {
    #[inline(always)]
    pub fn new(_: Global) -> Vec<T> {
        Vec(rust::vec::Vec::new())
    }

    #[inline]
    pub fn with_capacity(_: Global, capacity: usize) -> Result<Vec<T>, AllocError> {
        let mut items = rust::vec::Vec::new();
        allocated(items.try_reserve_exact(capacity))?;
        Ok(Vec(items))
    }

    #[inline(always)]
    pub fn as_slice(&self) -> &[T] {
        self.0.as_slice()
    }

    #[inline(always)]
    pub fn truncate(&mut self, len: usize) {
        self.0.truncate(len);
    }

    #[inline(always)]
    pub fn push(&mut self, item: T) -> Result<(), AllocError> {
        allocated(self.0.try_reserve(1))?;
        self.0.push(item);
        Ok(())
    }

    /// Appends an item. In Rattle, that there is room for it is this call's condition.
    #[inline(always)]
    pub fn push_reserved(&mut self, item: T) {
        self.0.push(item);
    }
}

impl<T: Copy> Vec<T> {
    pub fn from_slice(alloc: Global, items: &[T]) -> Result<Vec<T>, AllocError> {
        let mut made = Vec::with_capacity(alloc, items.len())?;
        made.0.extend_from_slice(items);
        Ok(made)
    }

    #[inline(always)]
    pub fn extend_from_slice(&mut self, items: &[T]) -> Result<(), AllocError> {
        allocated(self.0.try_reserve(items.len()))?;
        self.0.extend_from_slice(items);
        Ok(())
    }

    pub fn resize(&mut self, len: usize, item: T) -> Result<(), AllocError> {
        allocated(self.0.try_reserve(len.saturating_sub(self.0.len())))?;
        self.0.resize(len, item);
        Ok(())
    }
}

impl<T> core::ops::Deref for Vec<T> {
    type Target = [T];

    #[inline(always)]
    fn deref(&self) -> &[T] {
        &self.0
    }
}

impl<T> core::ops::DerefMut for Vec<T> {
    #[inline(always)]
    fn deref_mut(&mut self) -> &mut [T] {
        &mut self.0
    }
}
