//! The words of a chunk as a slice: they lie side by side in the region's slots. Not proved: the calls that were proved read
//! and write one word each. What they rest on is all that this rests on, that nobody but a chunk's holder reaches its words.

use super::Region;
use crate::Chunk;

impl Chunk {
    /// Its words.
    pub fn as_words<'a>(&'a self, r: &'a Region) -> &'a [u64] {
        let (first, count) = (self.at.word() as usize, (self.bytes / 8) as usize);
        self.part.seat.slots(r.shared(), first, count)
    }

    /// The same, to be changed.
    pub fn as_words_mut<'a>(&'a mut self, r: &'a Region) -> &'a mut [u64] {
        let (first, count) = (self.at.word() as usize, (self.bytes / 8) as usize);
        self.part.seat.slots_mut(r.shared(), first, count)
    }

    /// The bytes of its words, as the machine lays them out.
    pub fn as_bytes<'a>(&'a self, r: &'a Region) -> &'a [u8] {
        let words = self.as_words(r);
        // SAFETY: words are eight bytes each, of any value.
        unsafe { std::slice::from_raw_parts(words.as_ptr().cast(), size_of_val(words)) }
    }

    /// The same, to be changed.
    pub fn as_bytes_mut<'a>(&'a mut self, r: &'a Region) -> &'a mut [u8] {
        let words = self.as_words_mut(r);
        // SAFETY: as above, and any bytes make a word.
        unsafe { std::slice::from_raw_parts_mut(words.as_mut_ptr().cast(), size_of_val(words)) }
    }
}
