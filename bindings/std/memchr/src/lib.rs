//! Stands for the toolchain's `memchr`: the first place of a byte, 64 bytes at a time.

#![forbid(unsafe_code)]

use rattle_std::simd::prelude::*;

/// How many bytes are looked at together.
const BLOCK: usize = 64;

/// How many bytes are looked at together from the end on.
const END_BLOCK: usize = 16;

const LANES: u64 = 0x0101_0101_0101_0101;

const HIGH_BITS: u64 = 0x8080_8080_8080_8080;

/// A number that is 0 exactly where no byte of `word` is the one that `lanes` repeats; its lowest bit set is in the first
/// such byte.
#[inline(always)]
fn matches(word: u64, lanes: u64) -> u64 {
    let differences = word ^ lanes;
    differences.wrapping_sub(LANES) & !differences & HIGH_BITS
}

/// Whether one of some bytes is wanted. There is no early end, so that rustc makes vector code of it.
#[inline(always)]
fn has<const N: usize>(bytes: &[u8; N], is_wanted: impl Fn(u8) -> bool) -> bool {
    bytes.iter().fold(0, |found, byte| found | u8::from(is_wanted(*byte))) != 0
}

/// The first place of a byte, eight bytes at a time.
#[inline(always)]
fn by_words(needle: u8, haystack: &[u8]) -> Option<usize> {
    let lanes = u64::from(needle) * LANES;
    let (words, rest) = haystack.as_chunks::<8>();
    for (at, word) in words.iter().enumerate() {
        let found = matches(u64::from_le_bytes(*word), lanes);
        if found != 0 {
            return Some(8 * at + found.trailing_zeros() as usize / 8);
        }
    }
    let found = rest.iter().position(|byte| *byte == needle)?;
    Some(haystack.len() - rest.len() + found)
}

/// The first place of a byte in a block, if it is there.
#[inline(always)]
fn in_block(needle: u8, block: &[u8; BLOCK]) -> Option<usize> {
    let mask = u8x64::from_array(*block).simd_eq(u8x64::splat(needle)).to_bitmask();
    (mask != 0).then(|| mask.trailing_zeros() as usize)
}

/// The first place of a byte from a place on, a block at a time.
#[inline(never)]
fn by_blocks(needle: u8, haystack: &[u8], from: usize) -> Option<usize> {
    let (blocks, rest) = haystack[from..].as_chunks::<BLOCK>();
    for (at, block) in blocks.iter().enumerate() {
        if has(block, |byte| byte == needle) {
            return in_block(needle, block).map(|found| from + BLOCK * at + found);
        }
    }
    by_words(needle, rest).map(|found| haystack.len() - rest.len() + found)
}

/// The first place at which a byte stands, if it stands anywhere: exactly what
/// `haystack.iter().position(|b| *b == needle)` answers. Most callers find it near, so the first block is looked at by itself.
#[inline]
pub fn memchr(needle: u8, haystack: &[u8]) -> Option<usize> {
    let Some(near) = haystack.first_chunk::<BLOCK>() else {
        return by_words(needle, haystack);
    };
    match in_block(needle, near) {
        Some(at) => Some(at),
        None => by_blocks(needle, haystack, BLOCK),
    }
}

/// The last place at which one of two bytes stands, if one stands anywhere.
#[inline]
pub fn memrchr2(one: u8, other: u8, haystack: &[u8]) -> Option<usize> {
    let is_wanted = |byte: u8| byte == one || byte == other;
    let mut near = haystack;
    while let Some((front, block)) = near.split_last_chunk::<END_BLOCK>() {
        if has(block, is_wanted) {
            break;
        }
        near = front;
    }
    near.iter().rposition(|byte| is_wanted(*byte))
}

#[cfg(test)]
mod tests {
    use super::{memchr, memrchr2};

    const BYTES: [u8; 7] = [0, 1, 0x22, 0x7f, 0x80, 0x81, 0xff];

    /// Compares both searches with the plain ones, for each of a few bytes.
    fn compare(text: &[u8]) {
        for byte in BYTES {
            assert_eq!(memchr(byte, text), text.iter().position(|b| *b == byte), "{byte} in {text:?}");
            for other in BYTES {
                let plain = text.iter().rposition(|b| *b == byte || *b == other);
                assert_eq!(memrchr2(byte, other, text), plain, "{byte} or {other} in {text:?}");
            }
        }
    }

    #[test]
    fn finds_what_the_plain_search_finds() {
        for seed in 0..2000usize {
            let text: Vec<u8> = (0..seed % 37).map(|at| BYTES[(seed / 7 + at * at * (seed % 11)) % 7]).collect();
            compare(&text);
        }
    }

    /// One byte at each place of texts of up to some blocks, among bytes that differ from it by one bit.
    #[test]
    fn finds_a_byte_at_each_place() {
        for len in [1, 15, 16, 17, 63, 64, 65, 127, 128, 129, 200] {
            for at in 0..len {
                let mut text = vec![0x80; len];
                text[at] = 0x81;
                compare(&text);
            }
        }
    }
}
