//! What `tools/bench/run` counts, done by the original: one sort of work on one text, again and
//! again.
mod calls;

use crate::calls as call;
use fluent_uri::{Iri, Uri, UriRef};
use std::{slice, str};

/// What is returned for a rejected text, in place of the length of a result.
const REJECTED: u64 = u64::MAX;

/// Makes a call so many times, and returns how long the last result was.
macro_rules! length_of {
    ($rounds:expr, $call:expr) => {
        length_of!($rounds, $call, result => result.as_str())
    };
    ($rounds:expr, $call:expr, $result:ident => $text:expr) => {{
        let mut length = REJECTED;
        for _ in 0..$rounds {
            length = match $call {
                Some($result) => $text.len() as u64,
                None => REJECTED,
            };
        }
        length
    }};
}

/// Does the work so many times with the text, and with the base where it needs one: the numbers of
/// the works stand in `tools/bench/run`.
///
/// # Safety
///
/// Each pointer is to so many bytes as the number after it says.
#[unsafe(no_mangle)]
pub unsafe extern "C" fn bench(
    work: u32,
    text: *const u8,
    text_length: usize,
    base: *const u8,
    base_length: usize,
    rounds: u64,
) -> u64 {
    let (text, base) = unsafe {
        (
            slice::from_raw_parts(text, text_length),
            slice::from_raw_parts(base, base_length),
        )
    };
    let (Ok(text), Ok(base)) = (str::from_utf8(text), str::from_utf8(base)) else {
        return REJECTED;
    };
    match work {
        0 => length_of!(rounds, call::parse_uri(text).ok()),
        1 => length_of!(rounds, call::parse_uri_ref(text).ok()),
        2 => length_of!(rounds, call::parse_iri(text).ok()),
        3 => length_of!(rounds, call::parse_iri_ref(text).ok()),
        4 => length_of!(rounds, call::normalize_uri(text)),
        5 => length_of!(rounds, call::normalize_uri_ref(text)),
        6 => length_of!(rounds, call::normalize_iri(text)),
        7 => length_of!(rounds, call::normalize_iri_ref(text)),
        8 => length_of!(rounds, call::resolve_uri(base, text)),
        9 => length_of!(rounds, call::resolve_iri(base, text)),
        10 => resolve_values(base, text, rounds),
        11 => length_of!(rounds, call::resolve_normalized(base, text)),
        12 => decode(text, rounds),
        13 => length_of!(rounds, call::encode(text)),
        14 => length_of!(rounds, call::to_uri(text)),
        15 => build(text, rounds),
        16 => links(base, text, rounds),
        _ => REJECTED,
    }
}

fn resolve_values(base: &str, reference: &str, rounds: u64) -> u64 {
    let (Ok(base), Ok(reference)) = (Uri::parse(base), UriRef::parse(reference)) else {
        return REJECTED;
    };
    length_of!(rounds, call::resolve_values(base, reference))
}

fn decode(text: &str, rounds: u64) -> u64 {
    let Ok(value) = Iri::parse(text) else {
        return REJECTED;
    };
    length_of!(rounds, call::decode(value.path()), result => result)
}

fn build(text: &str, rounds: u64) -> u64 {
    let Ok(value) = Uri::parse(text) else {
        return REJECTED;
    };
    length_of!(rounds, call::build(value))
}

/// Notes each line in a new register, and returns how many targets that has then.
fn links(base: &str, lines: &str, rounds: u64) -> u64 {
    let Ok(base) = Uri::parse(base) else {
        return REJECTED;
    };
    let mut targets = REJECTED;
    for _ in 0..rounds {
        let mut register = call::Register::default();
        for line in lines.split('\n') {
            if call::note(&mut register, &base, line).is_none() {
                return REJECTED;
            }
        }
        targets = register.targets.len() as u64;
    }
    targets
}
