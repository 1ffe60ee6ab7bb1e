//! The works of `tools/bench/run` that the crate `url` has.
use std::{slice, str};
use url::Url;

const REJECTED: u64 = u64::MAX;
const PARSE_URI: u32 = 0;
const NORMALIZE_URI: u32 = 4;
const RESOLVE_URI: u32 = 8;

/// Copies the text of a URL and returns its length, or that of none.
fn written(made: Option<Url>, out: &mut [u8]) -> u64 {
    let Some(made) = made else {
        return REJECTED;
    };
    let text = made.as_str();
    out[..text.len()].copy_from_slice(text.as_bytes());
    text.len() as u64
}

#[inline(never)]
fn worked(work: u32, text: &str, base: &str, out: &mut [u8]) -> u64 {
    match work {
        PARSE_URI => Url::parse(text).map_or(REJECTED, |_| text.len() as u64),
        NORMALIZE_URI => written(Url::parse(text).ok(), out),
        _ => written(Url::parse(base).and_then(|it| it.join(text)).ok(), out),
    }
}

/// Does the work so many times: the numbers of the works are in `tools/bench/run`.
///
/// # Safety
///
/// Each pointer is to so many bytes as the number after it says, and no other thread calls.
#[no_mangle]
pub unsafe extern "C" fn bench(
    work: u32,
    text: *const u8,
    text_length: usize,
    base: *const u8,
    base_length: usize,
    rounds: u64,
) -> u64 {
    static mut OUT: [u8; 1 << 16] = [0; 1 << 16];
    let (text, base, out) = unsafe {
        (
            slice::from_raw_parts(text, text_length),
            slice::from_raw_parts(base, base_length),
            &mut *std::ptr::addr_of_mut!(OUT),
        )
    };
    let (Ok(text), Ok(base)) = (str::from_utf8(text), str::from_utf8(base)) else {
        return REJECTED;
    };
    let mut length = REJECTED;
    if matches!(work, PARSE_URI | NORMALIZE_URI | RESOLVE_URI) {
        for _ in 0..rounds {
            length = worked(work, text, base, out);
        }
    }
    length
}
