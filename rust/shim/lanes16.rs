//! Vectors of sixteen bytes, with the calls of `std::simd` (unstable in Rust) that the erased sources
//! make. A call does for each lane what its name says, whatever the target.
//!
//! `--cfg fluent_uri_portable` has every target take the plain arrays.
#![allow(non_camel_case_types)]

pub use self::lanes::u8x16;

/// Whether the target shuffles sixteen bytes by one instruction. The erased sources take their
/// paths for short texts where it does not.
pub const SWIZZLES: bool = cfg!(all(
    not(fluent_uri_portable),
    any(
        all(target_arch = "x86_64", target_feature = "ssse3"),
        all(target_arch = "aarch64", target_feature = "neon", target_endian = "little")
    )
));

/// Two numbers of 64 bits.
#[derive(Clone, Copy)]
pub struct u64x2([u64; 2]);

impl u64x2 {
    #[inline(always)]
    pub fn from_array(numbers: [u64; 2]) -> u64x2 {
        u64x2(numbers)
    }

    #[inline(always)]
    pub fn to_le_bytes(self) -> u8x16 {
        let mut bytes = [0; 16];
        bytes[..8].copy_from_slice(&self.0[0].to_le_bytes());
        bytes[8..].copy_from_slice(&self.0[1].to_le_bytes());
        u8x16::from_array(bytes)
    }
}

/// Sixty-four bytes, which only mending uses.
#[derive(Clone, Copy)]
pub struct u8x64([u8; 64]);

impl u8x64 {
    #[inline(always)]
    pub fn splat(byte: u8) -> u8x64 {
        u8x64([byte; 64])
    }

    /// Lane i is the lane `from[i]` of the two vectors, one after the other.
    #[inline(always)]
    pub fn shuffle(self, other: u8x64, from: [usize; 64]) -> u8x64 {
        let pick = |i: usize| if i < 64 { self.0[i] } else { other.0[i - 64] };
        u8x64(from.map(pick))
    }

    #[inline(always)]
    pub fn copy_to_slice(self, out: &mut [u8]) {
        out[..64].copy_from_slice(&self.0);
    }
}

/// One bit a lane: bit i is for lane i.
#[derive(Clone, Copy)]
pub struct Mask(u16);

impl Mask {
    #[inline(always)]
    pub fn to_bitmask(self) -> u64 {
        u64::from(self.0)
    }
}

impl u8x16 {
    /// The first sixteen of the bytes, of which there are as many.
    #[inline(always)]
    pub fn from_slice(bytes: &[u8]) -> u8x16 {
        let Some(first) = bytes.first_chunk::<16>() else { panic!("fewer than sixteen bytes") };
        u8x16::from_array(*first)
    }

    #[inline(always)]
    pub fn copy_to_slice(self, out: &mut [u8]) {
        out[..16].copy_from_slice(&self.to_array());
    }

    /// Lane i is the lane `from[i]` of the two vectors, one after the other.
    #[inline(always)]
    pub fn shuffle(self, other: u8x16, from: [usize; 64]) -> u8x64 {
        let (first, second) = (self.to_array(), other.to_array());
        let pick = |i: usize| if i < 16 { first[i] } else { second[i - 16] };
        u8x64(from.map(pick))
    }
}

/// What a vector that is an array does in each lane.
#[allow(dead_code)]
mod plain {
    /// Lane i is the lane of `bytes` that lane i of `indices` names, and 0 where it names none.
    #[inline(always)]
    pub fn swizzle(bytes: [u8; 16], indices: [u8; 16]) -> [u8; 16] {
        indices.map(|i| if i < 16 { bytes[usize::from(i)] } else { 0 })
    }

    #[inline(always)]
    pub fn join(a: [u8; 16], b: [u8; 16], f: impl Fn(u8, u8) -> u8) -> [u8; 16] {
        core::array::from_fn(|i| f(a[i], b[i]))
    }

    #[inline(always)]
    pub fn mask(a: [u8; 16], b: [u8; 16], f: impl Fn(u8, u8) -> bool) -> u16 {
        (0..16).fold(0, |mask, i| mask | u16::from(f(a[i], b[i])) << i)
    }
}

#[cfg(all(target_arch = "x86_64", not(fluent_uri_portable)))]
mod lanes {
    use super::{plain, Mask};
    use core::arch::x86_64::*;

    #[derive(Clone, Copy)]
    pub struct u8x16(__m128i);

    // Newer compilers have most of these intrinsics as safe functions.
    #[allow(unused_unsafe)]
    impl u8x16 {
        #[inline(always)]
        pub fn from_array(bytes: [u8; 16]) -> u8x16 {
            // SAFETY: `bytes` has the sixteen bytes that are read. SSE2 is in every x86-64 target.
            u8x16(unsafe { _mm_loadu_si128(bytes.as_ptr().cast()) })
        }

        #[inline(always)]
        pub fn to_array(self) -> [u8; 16] {
            let mut bytes = [0; 16];
            // SAFETY: `bytes` has room for the sixteen bytes that are written.
            unsafe { _mm_storeu_si128(bytes.as_mut_ptr().cast(), self.0) };
            bytes
        }

        #[inline(always)]
        pub fn splat(byte: u8) -> u8x16 {
            // SAFETY: SSE2 is in every x86-64 target.
            u8x16(unsafe { _mm_set1_epi8(byte as i8) })
        }

        #[inline(always)]
        pub fn simd_eq(self, other: u8x16) -> Mask {
            // SAFETY: SSE2 is in every x86-64 target.
            Mask(unsafe { _mm_movemask_epi8(_mm_cmpeq_epi8(self.0, other.0)) } as u16)
        }

        #[inline(always)]
        pub fn simd_le(self, other: u8x16) -> Mask {
            // SAFETY: SSE2 is in every x86-64 target.
            u8x16(unsafe { _mm_min_epu8(self.0, other.0) }).simd_eq(self)
        }

        /// Lane i is the lane of `self` that lane i of `indices` names, and 0 where it names none.
        #[inline(always)]
        pub fn swizzle_dyn_within<const K: usize>(self, indices: u8x16) -> u8x16 {
            const { assert!(K == 16) };
            #[cfg(target_feature = "ssse3")]
            {
                // The instruction reads four bits and bit 7 of an index: adding 112, at most to 255,
                // sets bit 7 of each index from 16 on.
                // SAFETY: the target has SSSE3.
                return u8x16(unsafe {
                    _mm_shuffle_epi8(self.0, _mm_adds_epu8(indices.0, _mm_set1_epi8(0x70)))
                });
            }
            #[cfg(not(target_feature = "ssse3"))]
            u8x16::from_array(plain::swizzle(self.to_array(), indices.to_array()))
        }
    }

    impl core::ops::BitAnd for u8x16 {
        type Output = u8x16;

        #[allow(unused_unsafe)]
        #[inline(always)]
        fn bitand(self, other: u8x16) -> u8x16 {
            // SAFETY: SSE2 is in every x86-64 target.
            u8x16(unsafe { _mm_and_si128(self.0, other.0) })
        }
    }

    impl core::ops::Shr for u8x16 {
        type Output = u8x16;

        #[inline(always)]
        fn shr(self, by: u8x16) -> u8x16 {
            u8x16::from_array(plain::join(self.to_array(), by.to_array(), |a, b| a >> b))
        }
    }
}

#[cfg(all(
    target_arch = "aarch64",
    target_feature = "neon",
    target_endian = "little",
    not(fluent_uri_portable)
))]
mod lanes {
    use super::Mask;
    use core::arch::aarch64::*;

    #[derive(Clone, Copy)]
    pub struct u8x16(uint8x16_t);

    /// For each lane of a half the bit that it has in the half's byte of a mask.
    const BITS: [u8; 16] = [1, 2, 4, 8, 16, 32, 64, 128, 1, 2, 4, 8, 16, 32, 64, 128];

    #[allow(unused_unsafe)]
    impl u8x16 {
        #[inline(always)]
        pub fn from_array(bytes: [u8; 16]) -> u8x16 {
            // SAFETY: `bytes` has the sixteen bytes that are read. The target has NEON.
            u8x16(unsafe { vld1q_u8(bytes.as_ptr()) })
        }

        #[inline(always)]
        pub fn to_array(self) -> [u8; 16] {
            let mut bytes = [0; 16];
            // SAFETY: `bytes` has room for the sixteen bytes that are written.
            unsafe { vst1q_u8(bytes.as_mut_ptr(), self.0) };
            bytes
        }

        #[inline(always)]
        pub fn splat(byte: u8) -> u8x16 {
            // SAFETY: the target has NEON.
            u8x16(unsafe { vdupq_n_u8(byte) })
        }

        /// The mask of lanes of which each is 0 or 255.
        #[inline(always)]
        fn mask(self) -> Mask {
            // SAFETY: the target has NEON.
            unsafe {
                let bits = vandq_u8(self.0, u8x16::from_array(BITS).0);
                let low = vaddv_u8(vget_low_u8(bits));
                let high = vaddv_u8(vget_high_u8(bits));
                Mask(u16::from_le_bytes([low, high]))
            }
        }

        #[inline(always)]
        pub fn simd_eq(self, other: u8x16) -> Mask {
            // SAFETY: the target has NEON.
            u8x16(unsafe { vceqq_u8(self.0, other.0) }).mask()
        }

        #[inline(always)]
        pub fn simd_le(self, other: u8x16) -> Mask {
            // SAFETY: the target has NEON.
            u8x16(unsafe { vcleq_u8(self.0, other.0) }).mask()
        }

        /// Lane i is the lane of `self` that lane i of `indices` names, and 0 where it names none.
        #[inline(always)]
        pub fn swizzle_dyn_within<const K: usize>(self, indices: u8x16) -> u8x16 {
            const { assert!(K == 16) };
            // SAFETY: the target has NEON.
            u8x16(unsafe { vqtbl1q_u8(self.0, indices.0) })
        }
    }

    impl core::ops::BitAnd for u8x16 {
        type Output = u8x16;

        #[allow(unused_unsafe)]
        #[inline(always)]
        fn bitand(self, other: u8x16) -> u8x16 {
            // SAFETY: the target has NEON.
            u8x16(unsafe { vandq_u8(self.0, other.0) })
        }
    }

    impl core::ops::Shr for u8x16 {
        type Output = u8x16;

        #[allow(unused_unsafe)]
        #[inline(always)]
        fn shr(self, by: u8x16) -> u8x16 {
            // SAFETY: the target has NEON.
            u8x16(unsafe { vshlq_u8(self.0, vnegq_s8(vreinterpretq_s8_u8(by.0))) })
        }
    }
}

#[cfg(not(any(
    all(target_arch = "x86_64", not(fluent_uri_portable)),
    all(
        target_arch = "aarch64",
        target_feature = "neon",
        target_endian = "little",
        not(fluent_uri_portable)
    )
)))]
mod lanes {
    use super::{plain, Mask};

    #[derive(Clone, Copy)]
    pub struct u8x16([u8; 16]);

    impl u8x16 {
        #[inline(always)]
        pub fn from_array(bytes: [u8; 16]) -> u8x16 {
            u8x16(bytes)
        }

        #[inline(always)]
        pub fn to_array(self) -> [u8; 16] {
            self.0
        }

        #[inline(always)]
        pub fn splat(byte: u8) -> u8x16 {
            u8x16([byte; 16])
        }

        #[inline(always)]
        pub fn simd_eq(self, other: u8x16) -> Mask {
            Mask(plain::mask(self.0, other.0, |a, b| a == b))
        }

        #[inline(always)]
        pub fn simd_le(self, other: u8x16) -> Mask {
            Mask(plain::mask(self.0, other.0, |a, b| a <= b))
        }

        /// Lane i is the lane of `self` that lane i of `indices` names, and 0 where it names none.
        #[inline(always)]
        pub fn swizzle_dyn_within<const K: usize>(self, indices: u8x16) -> u8x16 {
            const { assert!(K == 16) };
            u8x16(plain::swizzle(self.0, indices.0))
        }
    }

    impl core::ops::BitAnd for u8x16 {
        type Output = u8x16;

        #[inline(always)]
        fn bitand(self, other: u8x16) -> u8x16 {
            u8x16(plain::join(self.0, other.0, |a, b| a & b))
        }
    }

    impl core::ops::Shr for u8x16 {
        type Output = u8x16;

        #[inline(always)]
        fn shr(self, by: u8x16) -> u8x16 {
            u8x16(plain::join(self.0, by.0, |a, b| a >> b))
        }
    }
}

#[cfg(test)]
#[path = "lanes16_tests.rs"]
mod tests;
