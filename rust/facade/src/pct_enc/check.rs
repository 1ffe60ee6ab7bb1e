//! Whether a text is of an encoder, for constants. At run time the engine's scans do the same.

use super::Table;

/// Returns whether a table allows a text. It does what `allows_text` of the engine does, which no
/// constant may call.
pub(crate) const fn allows_text(table: &Table, text: &str) -> bool {
    let bytes = text.as_bytes();
    let mut i = 0;
    while i < bytes.len() {
        let len =
            if bytes[i] == b'%' { octet_len(table, bytes, i) } else { char_len(table, bytes, i) };
        if len == 0 {
            return false;
        }
        i += len;
    }
    true
}

/// Returns 3 if a percent-encoded octet is at a position and the table allows it, and else 0.
const fn octet_len(table: &Table, bytes: &[u8], i: usize) -> usize {
    let is_octet = bytes.len() - i >= 3
        && bytes[i + 1].is_ascii_hexdigit()
        && bytes[i + 2].is_ascii_hexdigit();
    if is_octet && table.allows_pct_encoded() {
        3
    } else {
        0
    }
}

/// Returns the length of the character at a position of a text if the table allows it, and else 0.
const fn char_len(table: &Table, bytes: &[u8], i: usize) -> usize {
    let first = bytes[i];
    let len = match first {
        0..=0x7F => 1,
        0x80..=0xDF => 2,
        0xE0..=0xEF => 3,
        _ => 4,
    };
    let mut code = if len == 1 { first as u32 } else { first as u32 & (0xFF >> (len + 1)) };
    let mut k = 1;
    while k < len {
        code = code << 6 | bytes[i + k] as u32 & 0x3F;
        k += 1;
    }
    match char::from_u32(code) {
        Some(ch) if table.allows(ch) => len,
        _ => 0,
    }
}

#[cfg(test)]
mod tests {
    use super::allows_text;
    use crate::pct_enc::{encoder::*, Encoder};
    use alloc::string::String;

    /// The check says what the engine's scan says, for each encoder.
    fn agrees(text: &str) {
        let tables = [
            Userinfo::TABLE,
            IUserinfo::TABLE,
            RegName::TABLE,
            IRegName::TABLE,
            Port::TABLE,
            Path::TABLE,
            IPath::TABLE,
            Query::TABLE,
            IQuery::TABLE,
            Fragment::TABLE,
            IFragment::TABLE,
            Data::TABLE,
            IData::TABLE,
        ];
        for table in tables {
            assert_eq!(allows_text(table, text), table.set.allows_text(text), "{text:?}");
        }
    }

    #[test]
    fn every_character() {
        for ch in '\0'..=char::MAX {
            let mut buf = [0; 4];
            agrees(ch.encode_utf8(&mut buf));
        }
    }

    #[test]
    fn octets_and_their_parts() {
        let pieces = ["%", "%4", "%4g", "%g4", "%41", "%e9", "a", "é", "\u{10FFFD}", "/"];
        for a in pieces {
            for b in pieces {
                for c in pieces {
                    agrees(&String::from_iter([a, b, c]));
                }
            }
        }
    }
}
