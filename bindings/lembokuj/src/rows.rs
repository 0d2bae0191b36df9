//! The words and bytes of a chunk at places.

use std::fmt;

/// The chunk has no such word or byte; nothing was done.
#[derive(Clone, Copy, Debug, PartialEq, Eq)]
pub struct NoWord;

impl fmt::Display for NoWord {
    fn fmt(&self, f: &mut fmt::Formatter<'_>) -> fmt::Result {
        f.write_str("the chunk has no such word")
    }
}

impl std::error::Error for NoWord {}

pub(crate) fn place(at: u64) -> Option<usize> {
    usize::try_from(at).ok()
}

/// The range of `count` places from one on.
fn range(at: u64, count: usize) -> Option<std::ops::Range<usize>> {
    let at = place(at)?;
    Some(at..at.checked_add(count)?)
}

pub(crate) fn row<T>(all: &[T], at: u64, count: usize) -> Result<&[T], NoWord> {
    range(at, count).and_then(|range| all.get(range)).ok_or(NoWord)
}

pub(crate) fn row_mut<T>(all: &mut [T], at: u64, count: usize) -> Result<&mut [T], NoWord> {
    range(at, count).and_then(|range| all.get_mut(range)).ok_or(NoWord)
}

/// The calls of a chunk at places, over its slices.
macro_rules! chunk_calls {
    () => {
        /// The word at a place, if it has one there.
        #[inline]
        #[must_use]
        pub fn load(&self, at: u64) -> Option<u64> {
            self.as_words().get($crate::rows::place(at)?).copied()
        }

        /// Changes the word at a place.
        ///
        /// # Errors
        ///
        /// [`NoWord`](crate::NoWord).
        #[inline]
        pub fn store(&mut self, at: u64, value: u64) -> Result<(), $crate::rows::NoWord> {
            let at = $crate::rows::place(at).ok_or($crate::rows::NoWord)?;
            *self.as_words_mut().get_mut(at).ok_or($crate::rows::NoWord)? = value;
            Ok(())
        }

        /// Copies its words from a place on, until the slice is full.
        ///
        /// # Errors
        ///
        /// [`NoWord`](crate::NoWord) if it has fewer.
        pub fn read(&self, at: u64, words: &mut [u64]) -> Result<(), $crate::rows::NoWord> {
            words.copy_from_slice($crate::rows::row(self.as_words(), at, words.len())?);
            Ok(())
        }

        /// Changes its words from a place on to those of the slice.
        ///
        /// # Errors
        ///
        /// [`NoWord`](crate::NoWord) if it has fewer; nothing was changed.
        pub fn write(&mut self, at: u64, words: &[u64]) -> Result<(), $crate::rows::NoWord> {
            $crate::rows::row_mut(self.as_words_mut(), at, words.len())?.copy_from_slice(words);
            Ok(())
        }

        /// Copies its bytes from a place on, until the slice is full.
        ///
        /// # Errors
        ///
        /// [`NoWord`](crate::NoWord) if it has fewer.
        pub fn read_bytes(&self, at: u64, bytes: &mut [u8]) -> Result<(), $crate::rows::NoWord> {
            bytes.copy_from_slice($crate::rows::row(self.as_bytes(), at, bytes.len())?);
            Ok(())
        }

        /// Changes its bytes from a place on to those of the slice.
        ///
        /// # Errors
        ///
        /// [`NoWord`](crate::NoWord) if it has fewer; nothing was changed.
        pub fn write_bytes(&mut self, at: u64, bytes: &[u8]) -> Result<(), $crate::rows::NoWord> {
            $crate::rows::row_mut(self.as_bytes_mut(), at, bytes.len())?.copy_from_slice(bytes);
            Ok(())
        }
    };
}
pub(crate) use chunk_calls;
