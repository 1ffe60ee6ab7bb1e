//! Sets of characters, which may be made in constants.

use crate::proved::uri_pct::table as engine;
use core::fmt;

/// A set of ASCII characters other than
/// `%`, and three flags: percent-encoded octets, the characters of `ucschar`, and those of
/// `iprivate` (RFC 3987, section 2.2).
///
/// # Examples
///
/// ```
/// use fluent_uri::pct_enc::Table;
///
/// const HEX: Table = Table::new(b"0123456789abcdef").or_pct_encoded();
/// assert!(HEX.allows('a') && HEX.allows_pct_encoded());
/// assert!(!HEX.allows('g'));
/// ```
#[derive(Clone, Copy)]
pub struct Table {
    pub(crate) set: engine::Table,
}

impl Table {
    /// Returns the table of these characters, without percent-encoded octets and without characters
    /// past ASCII.
    ///
    /// # Panics
    ///
    /// Panics if a byte is not ASCII or is `%`.
    ///
    /// # Examples
    ///
    /// ```
    /// use fluent_uri::pct_enc::Table;
    ///
    /// assert!(Table::new(b"ab").allows('b'));
    /// assert!(!Table::new(b"ab").allows('c'));
    /// ```
    #[must_use]
    pub const fn new(bytes: &[u8]) -> Self {
        let mut bits: u128 = 0;
        let mut i = 0;
        while i < bytes.len() {
            let byte = bytes[i];
            assert!(byte.is_ascii() && byte != b'%', "cannot allow non-ASCII byte or %");
            bits |= 1 << byte;
            i += 1;
        }
        Self::of(engine::Table::of_parts(bits as u64, (bits >> 64) as u64, false, false, false))
    }

    pub(crate) const fn of(set: engine::Table) -> Self {
        Self { set }
    }

    /// Returns the union of two tables: of their characters, and of each flag.
    ///
    /// # Examples
    ///
    /// ```
    /// use fluent_uri::pct_enc::Table;
    ///
    /// assert!(Table::new(b"a").or(&Table::new(b"b")).allows('b'));
    /// ```
    #[must_use]
    pub const fn or(self, other: &Self) -> Self {
        Self::of(self.set.or(&other.set))
    }

    /// Returns the table with percent-encoded octets allowed.
    ///
    /// # Examples
    ///
    /// ```
    /// use fluent_uri::pct_enc::Table;
    ///
    /// assert!(Table::new(b"a").or_pct_encoded().allows_pct_encoded());
    /// ```
    #[must_use]
    pub const fn or_pct_encoded(self) -> Self {
        Self::of(self.set.or_pct_encoded())
    }

    /// Returns the table with the characters of `ucschar` allowed (RFC 3987, section 2.2).
    ///
    /// # Examples
    ///
    /// ```
    /// use fluent_uri::pct_enc::Table;
    ///
    /// assert!(Table::new(b"a").or_ucschar().allows('é'));
    /// ```
    #[must_use]
    pub const fn or_ucschar(self) -> Self {
        Self::of(self.set.or_ucschar())
    }

    /// Returns the table with the characters of `iprivate` allowed (RFC 3987, section 2.2).
    ///
    /// # Examples
    ///
    /// ```
    /// use fluent_uri::pct_enc::Table;
    ///
    /// assert!(Table::new(b"a").or_iprivate().allows('\u{E000}'));
    /// ```
    #[must_use]
    pub const fn or_iprivate(self) -> Self {
        Self::of(self.set.or_iprivate())
    }

    /// Returns what `self` allows and `other` does not, among the characters and the flags.
    ///
    /// # Examples
    ///
    /// ```
    /// use fluent_uri::pct_enc::{encoder::Path, Encoder, Table};
    ///
    /// assert!(!Path::TABLE.sub(&Table::new(b"/")).allows('/'));
    /// ```
    #[must_use]
    pub const fn sub(self, other: &Self) -> Self {
        Self::of(self.set.sub(&other.set))
    }

    /// Returns whether `other` allows every character that `self` allows, and has each of its
    /// flags.
    ///
    /// # Examples
    ///
    /// ```
    /// use fluent_uri::pct_enc::{encoder::{Path, Query}, Encoder};
    ///
    /// assert!(Path::TABLE.is_subset(Query::TABLE));
    /// assert!(!Query::TABLE.is_subset(Path::TABLE));
    /// ```
    #[must_use]
    pub const fn is_subset(&self, other: &Self) -> bool {
        self.set.is_subset(&other.set)
    }

    /// Returns whether the table allows the character as it is. It is `false` for `%`.
    ///
    /// # Examples
    ///
    /// ```
    /// use fluent_uri::pct_enc::{encoder::Path, Encoder};
    ///
    /// assert!(Path::TABLE.allows('a'));
    /// assert!(!Path::TABLE.allows('%'));
    /// ```
    #[must_use]
    pub const fn allows(&self, ch: char) -> bool {
        self.set.allows(ch)
    }

    /// Returns whether percent-encoded octets are allowed (RFC 3986, section 2.1).
    ///
    /// # Examples
    ///
    /// ```
    /// use fluent_uri::pct_enc::{encoder::{Path, Port}, Encoder};
    ///
    /// assert!(Path::TABLE.allows_pct_encoded());
    /// assert!(!Port::TABLE.allows_pct_encoded());
    /// ```
    #[must_use]
    pub const fn allows_pct_encoded(&self) -> bool {
        self.set.allows_pct_encoded()
    }
}

/// Prints one truth value for each byte and each flag, as `fluent-uri` does.
impl fmt::Debug for Table {
    fn fmt(&self, f: &mut fmt::Formatter<'_>) -> fmt::Result {
        let mut table = [false; 259];
        for byte in 0..128_u8 {
            table[usize::from(byte)] = self.allows(char::from(byte));
        }
        table[256] = self.allows_pct_encoded();
        table[257] = self.allows('\u{A0}');
        table[258] = self.allows('\u{E000}');
        f.debug_struct("Table").field("table", &table).finish()
    }
}
