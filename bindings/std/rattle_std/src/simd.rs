//! Lists of bytes that are compared all at once. They are plain loops over arrays, of which rustc makes vector code.

use std::ops::{BitAnd, BitOr, BitXor};

/// What a file that uses them has in scope.
pub mod prelude {
    pub use super::{Mask, Select, SimdPartialEq, SimdPartialOrd, u8x16, u8x32, u8x64};
}

/// The lowest bit of each byte of a word.
#[cfg(any(test, not(target_arch = "x86_64")))]
const LOWEST: u64 = 0x0101_0101_0101_0101;

/// A factor that moves the lowest bit of each byte to the highest byte, the first byte's lowest.
#[cfg(any(test, not(target_arch = "x86_64")))]
const GATHER: u64 = 0x0102_0408_1020_4080;

/// N bytes.
#[derive(Clone, Copy, Debug, PartialEq, Eq)]
pub struct Bytes<const N: usize>([u8; N]);

#[expect(non_camel_case_types, reason = "the names of std's")]
pub type u8x16 = Bytes<16>;
#[expect(non_camel_case_types, reason = "the names of std's")]
pub type u8x32 = Bytes<32>;
#[expect(non_camel_case_types, reason = "the names of std's")]
pub type u8x64 = Bytes<64>;

/// A yes or no for each of N places, as a byte with all bits set or none.
#[derive(Clone, Copy, Debug, PartialEq, Eq)]
pub struct Mask<const N: usize>([u8; N]);

/// What `f` makes of the bytes of two lists, place by place.
#[inline(always)]
fn zipped<const N: usize>(a: [u8; N], b: [u8; N], f: impl Fn(u8, u8) -> u8) -> [u8; N] {
    let mut made = [0; N];
    for at in 0..N {
        made[at] = f(a[at], b[at]);
    }
    made
}

impl<const N: usize> Bytes<N> {
    /// The same byte everywhere.
    #[inline(always)]
    pub const fn splat(byte: u8) -> Bytes<N> {
        Bytes([byte; N])
    }

    /// The first N bytes of a list that has as many.
    #[inline(always)]
    pub fn from_slice(bytes: &[u8]) -> Bytes<N> {
        let mut all = [0; N];
        all.copy_from_slice(&bytes[..N]);
        Bytes(all)
    }

    #[inline(always)]
    pub const fn from_array(bytes: [u8; N]) -> Bytes<N> {
        Bytes(bytes)
    }

    #[inline(always)]
    pub const fn to_array(self) -> [u8; N] {
        self.0
    }
}

/// The lowest bits of up to 64 bytes, eight bytes at a time.
#[cfg(any(test, not(target_arch = "x86_64")))]
#[inline(always)]
fn bits_by_words(bytes: &[u8]) -> u64 {
    let mut bits = 0;
    for (at, eight) in bytes.as_chunks::<8>().0.iter().enumerate() {
        let set = u64::from_le_bytes(*eight) & LOWEST;
        bits |= (set.wrapping_mul(GATHER) >> 56) << (8 * at);
    }
    bits
}

/// The highest bits of up to 64 bytes, sixteen bytes at a time. Rust has no safe name for the instruction, and finds it in
/// no loop.
#[cfg(target_arch = "x86_64")]
#[inline(always)]
#[expect(unsafe_code, reason = "vector instructions, which every processor of this architecture has")]
fn bits_by_vectors(bytes: &[u8]) -> u64 {
    use std::arch::x86_64::{_mm_loadu_si128, _mm_movemask_epi8};
    let mut bits = 0;
    for (at, sixteen) in bytes.as_chunks::<16>().0.iter().enumerate() {
        // SAFETY: SSE2 is part of x86-64, and the load is of the 16 bytes of an array, at any address.
        let set = unsafe { _mm_movemask_epi8(_mm_loadu_si128(sixteen.as_ptr().cast())) };
        bits |= u64::from(set as u32) << (16 * at);
    }
    bits
}

impl<const N: usize> Mask<N> {
    /// Bit k of the number is the yes of place k, of up to 64.
    #[inline(always)]
    pub fn to_bitmask(self) -> u64 {
        #[cfg(target_arch = "x86_64")]
        return bits_by_vectors(&self.0);
        #[cfg(not(target_arch = "x86_64"))]
        bits_by_words(&self.0)
    }

    /// Whether some place has a yes.
    #[inline(always)]
    pub fn any(self) -> bool {
        self.0 != [0; N]
    }
}

/// The choice between two lists, place by place.
pub trait Select<T> {
    /// The items of the first list where there is a yes, and else those of the second.
    fn select(self, yes: T, no: T) -> T;
}

impl<const N: usize> Select<Bytes<N>> for Mask<N> {
    #[inline(always)]
    fn select(self, yes: Bytes<N>, no: Bytes<N>) -> Bytes<N> {
        let kept = zipped(self.0, yes.0, |mask, byte| mask & byte);
        let other = zipped(self.0, no.0, |mask, byte| !mask & byte);
        Bytes(zipped(kept, other, |a, b| a | b))
    }
}

/// Comparisons for equality, place by place.
pub trait SimdPartialEq<const N: usize> {
    fn simd_eq(self, other: Self) -> Mask<N>;
    fn simd_ne(self, other: Self) -> Mask<N>;
}

/// Comparisons for order, place by place.
pub trait SimdPartialOrd<const N: usize> {
    fn simd_lt(self, other: Self) -> Mask<N>;
    fn simd_le(self, other: Self) -> Mask<N>;
    fn simd_gt(self, other: Self) -> Mask<N>;
    fn simd_ge(self, other: Self) -> Mask<N>;
}

/// A byte with all bits set for yes.
#[inline(always)]
fn mask(yes: bool) -> u8 {
    if yes { 255 } else { 0 }
}

impl<const N: usize> SimdPartialEq<N> for Bytes<N> {
    #[inline(always)]
    fn simd_eq(self, other: Bytes<N>) -> Mask<N> {
        Mask(zipped(self.0, other.0, |a, b| mask(a == b)))
    }

    #[inline(always)]
    fn simd_ne(self, other: Bytes<N>) -> Mask<N> {
        Mask(zipped(self.0, other.0, |a, b| mask(a != b)))
    }
}

impl<const N: usize> SimdPartialOrd<N> for Bytes<N> {
    #[inline(always)]
    fn simd_lt(self, other: Bytes<N>) -> Mask<N> {
        Mask(zipped(self.0, other.0, |a, b| mask(a < b)))
    }

    #[inline(always)]
    fn simd_le(self, other: Bytes<N>) -> Mask<N> {
        Mask(zipped(self.0, other.0, |a, b| mask(a <= b)))
    }

    #[inline(always)]
    fn simd_gt(self, other: Bytes<N>) -> Mask<N> {
        Mask(zipped(self.0, other.0, |a, b| mask(a > b)))
    }

    #[inline(always)]
    fn simd_ge(self, other: Bytes<N>) -> Mask<N> {
        Mask(zipped(self.0, other.0, |a, b| mask(a >= b)))
    }
}

macro_rules! operators {
    ($($name:ident $method:ident $operator:tt;)*) => {$(
        impl<const N: usize> $name for Bytes<N> {
            type Output = Bytes<N>;

            #[inline(always)]
            fn $method(self, other: Bytes<N>) -> Bytes<N> {
                Bytes(zipped(self.0, other.0, |a, b| a $operator b))
            }
        }

        impl<const N: usize> $name for Mask<N> {
            type Output = Mask<N>;

            #[inline(always)]
            fn $method(self, other: Mask<N>) -> Mask<N> {
                Mask(zipped(self.0, other.0, |a, b| a $operator b))
            }
        }
    )*};
}

operators! {
    BitAnd bitand &;
    BitOr bitor |;
    BitXor bitxor ^;
}

#[cfg(test)]
mod tests {
    use super::bits_by_words;
    use super::prelude::*;

    /// The bits of the places of which `f` says yes.
    fn slow(bytes: &[u8], f: impl Fn(u8) -> bool) -> u64 {
        bytes.iter().enumerate().fold(0, |bits, (at, byte)| bits | u64::from(f(*byte)) << at)
    }

    #[test]
    fn a_mask_has_the_places_that_a_plain_loop_finds() {
        for seed in 0..5000usize {
            let bytes: Vec<u8> = (0..64).map(|at| [0, 1, 0x2c, 0x7f, 0x80, 0x81, 0xff][seed.wrapping_mul(at * at + 7) / 3 % 7]).collect();
            let list = u8x64::from_slice(&bytes);
            for byte in [0, 1, 0x2c, 0x80, 0xff] {
                let other = u8x64::splat(byte);
                assert_eq!(list.simd_eq(other).to_bitmask(), slow(&bytes, |b| b == byte), "{byte} in {bytes:?}");
                assert_eq!(bits_by_words(&list.simd_eq(other).0), slow(&bytes, |b| b == byte), "{byte} in {bytes:?}");
                assert_eq!(list.simd_ge(other).to_bitmask(), slow(&bytes, |b| b >= byte), "{byte} in {bytes:?}");
                let chosen = list.simd_eq(other).select(u8x64::splat(3), u8x64::splat(4)) | u8x64::splat(8);
                assert_eq!(chosen.simd_eq(u8x64::splat(11)).to_bitmask(), slow(&bytes, |b| b == byte));
            }
        }
    }
}
