//! Each call against plain arrays.
use super::*;

/// Sixteen bytes that differ, and that all change with the seed.
fn bytes(seed: u8) -> [u8; 16] {
    core::array::from_fn(|i| seed.wrapping_mul(31).wrapping_add((i as u8).wrapping_mul(97)))
}

/// Each byte from `start` on, sixteen apart: one of them in each sixteenth of all bytes.
fn spread(start: u8) -> [u8; 16] {
    core::array::from_fn(|i| start.wrapping_add(16 * i as u8))
}

fn mask(is_set: impl Fn(usize) -> bool) -> u64 {
    (0..16).map(|i| u64::from(is_set(i)) << i).sum()
}

/// Calls `test` with all pairs of 256 arrays and 256 others.
fn with_pairs(test: impl Fn([u8; 16], [u8; 16])) {
    for a in 0..=255 {
        for b in 0..=255 {
            test(bytes(a), spread(b));
        }
    }
}

#[test]
fn arrays_and_slices() {
    for a in 0..=255 {
        let x = bytes(a);
        assert_eq!(u8x16::from_array(x).to_array(), x);
        let longer: std::vec::Vec<u8> = x.iter().copied().chain([1, 2]).collect();
        assert_eq!(u8x16::from_slice(&longer).to_array(), x);
        let mut out = [7; 18];
        u8x16::from_array(x).copy_to_slice(&mut out);
        assert_eq!(out[..16], x);
        assert_eq!(out[16..], [7, 7]);
        assert_eq!(u8x16::splat(a).to_array(), [a; 16]);
    }
}

#[test]
#[should_panic(expected = "fewer than sixteen bytes")]
fn short_slice() {
    let _ = u8x16::from_slice(&[0; 15]);
}

#[test]
fn comparisons() {
    with_pairs(|x, y| {
        let (v, w) = (u8x16::from_array(x), u8x16::from_array(y));
        assert_eq!(v.simd_eq(w).to_bitmask(), mask(|i| x[i] == y[i]));
        assert_eq!(v.simd_le(w).to_bitmask(), mask(|i| x[i] <= y[i]));
        assert_eq!(v.simd_eq(v).to_bitmask(), 0xFFFF);
        assert_eq!(v.simd_le(v).to_bitmask(), 0xFFFF);
    });
}

#[test]
fn bits_and_shifts() {
    with_pairs(|x, y| {
        let (v, w) = (u8x16::from_array(x), u8x16::from_array(y));
        assert_eq!((v & w).to_array(), core::array::from_fn(|i| x[i] & y[i]));
        let by: [u8; 16] = core::array::from_fn(|i| y[i] % 8);
        let shifted = v >> u8x16::from_array(by);
        assert_eq!(shifted.to_array(), core::array::from_fn(|i| x[i] >> by[i]));
    });
}

#[test]
fn swizzle() {
    with_pairs(|x, y| {
        let picked = u8x16::from_array(x).swizzle_dyn_within::<16>(u8x16::from_array(y));
        let lane = |i: usize| x.get(usize::from(y[i])).copied().unwrap_or(0);
        assert_eq!(picked.to_array(), core::array::from_fn(lane));
    });
}

#[test]
fn shuffles() {
    let both: [u8; 32] = core::array::from_fn(|i| i as u8 + 100);
    let (low, high) = both.split_at(16);
    let from: [usize; 64] = core::array::from_fn(|i| i * 7 % 32);
    let mut out = [0; 65];
    u8x16::from_slice(low).shuffle(u8x16::from_slice(high), from).copy_to_slice(&mut out);
    assert!((0..64).all(|i| out[i] == both[from[i]]));
    assert_eq!(out[64], 0);

    let first = u8x16::from_slice(low).shuffle(u8x16::from_slice(high), from);
    let again: [usize; 64] = core::array::from_fn(|i| i * 37 % 128);
    let before = out;
    first.shuffle(u8x64::splat(9), again).copy_to_slice(&mut out);
    let expected = |i: usize| if again[i] < 64 { before[again[i]] } else { 9 };
    assert!((0..64).all(|i| out[i] == expected(i)));
}

#[test]
fn words() {
    let words = u64x2::from_array([0x0706_0504_0302_0100, 0x0F0E_0D0C_0B0A_0908]);
    assert_eq!(words.to_le_bytes().to_array(), core::array::from_fn(|i| i as u8));
}
