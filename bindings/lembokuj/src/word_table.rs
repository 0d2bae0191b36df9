//! A table whose keys and values have numbers of words that are known only when it is made.

use crate::shared::reserved;
use crate::table::Ask;
use crate::{AllocError, NoSpace, Table, TableError, table_pages};

/// The most words of a key and of a value.
const MOST_KEY_WORDS: usize = 64;
const MOST_VALUE_WORDS: usize = 256;

/// The calls of a table whose values take some number of words, by the words.
trait Calls: Send {
    fn handle(&self) -> Result<Option<Box<dyn Calls>>, AllocError>;
    fn get(&mut self, key: &[u64], value: &mut [u64]) -> bool;
    fn put(&mut self, key: &[u64], value: &[u64], old: &mut [u64]) -> Result<bool, NoSpace>;
    fn remove(&mut self, key: &[u64], old: &mut [u64]) -> bool;
    fn swap(&mut self, key: &[u64], expected: Option<&[u64]>, new: Option<&[u64]>, found: &mut [u64]) -> Result<Swapped, NoSpace>;
    fn count(&mut self) -> u64;
    fn each(&mut self, number: u32, value_words: usize, each: &mut dyn FnMut(&[u64], &[u64])) -> Result<(), AllocError>;
}

/// What became of [`WordTable::compare_and_put`].
#[derive(Clone, Copy, Debug, PartialEq, Eq)]
pub enum Swapped {
    /// The value was the expected one, and is the new one now.
    Done,
    /// The value was another one, and stays.
    Other,
    /// There was a value expected, and the key is not there.
    Absent,
}

type Sized<const N: usize> = Table<Words, [u64; N]>;

/// Keys of a number of words that is known at run time.
enum Words {}

/// A value's words, followed by zeros.
fn filled<const N: usize>(words: &[u64]) -> [u64; N] {
    std::array::from_fn(|at| words.get(at).copied().unwrap_or(0))
}

/// Writes the words of a value for which there is room, and says whether there was one.
fn told<const N: usize>(value: Option<[u64; N]>, out: &mut [u64]) -> bool {
    if let Some(words) = &value {
        for (out, word) in out.iter_mut().zip(words) {
            *out = *word;
        }
    }
    value.is_some()
}

impl<const N: usize> Calls for Sized<N> {
    fn handle(&self) -> Result<Option<Box<dyn Calls>>, AllocError> {
        // A box ends the process if there is no memory, so as much is asked for and given back first.
        drop(reserved::<u8>(size_of::<Self>())?);
        let Some(handle) = Table::handle(self) else { return Ok(None) };
        Ok(Some(Box::new(handle)))
    }

    fn get(&mut self, key: &[u64], value: &mut [u64]) -> bool {
        told(self.get_at(key), value)
    }

    fn put(&mut self, key: &[u64], value: &[u64], old: &mut [u64]) -> Result<bool, NoSpace> {
        Ok(told(self.call_at(key, &Ask::Insert(filled(value)))?, old))
    }

    fn remove(&mut self, key: &[u64], old: &mut [u64]) -> bool {
        // A call that puts in no key is never refused.
        told(self.call_at(key, &Ask::Remove).unwrap_or(None), old)
    }

    fn swap(&mut self, key: &[u64], expected: Option<&[u64]>, new: Option<&[u64]>, found: &mut [u64]) -> Result<Swapped, NoSpace> {
        let expected = expected.map(filled);
        let before = self.call_at(key, &Ask::Swap(expected, new.map(filled)))?;
        let was_there = told(before, found);
        Ok(match before == expected {
            true => Swapped::Done,
            false if was_there => Swapped::Other,
            false => Swapped::Absent,
        })
    }

    fn count(&mut self) -> u64 {
        Table::count(self)
    }

    fn each(&mut self, number: u32, value_words: usize, each: &mut dyn FnMut(&[u64], &[u64])) -> Result<(), AllocError> {
        for (key, value) in self.listed(number)? {
            each(key.words(), &value[..value_words]);
        }
        Ok(())
    }
}

/// A handle of a table whose keys have 1 to 64 words and whose values 0 to 256, both given when it is made: for callers that
/// have no types for them. A value takes the next power of two of words.
///
/// ```
/// use lembokuj::{Swapped, WordTable};
///
/// let mut table = WordTable::open(WordTable::pages(100, 2, 3), 1, 2, 3)?;
/// let mut old = [0; 3];
/// assert_eq!(table.put(&[1, 2], &[5, 6, 7], &mut old), Ok(false));
/// assert_eq!(table.compare_and_put(&[1, 2], Some(&[5, 6, 7]), Some(&[8, 9, 10]), &mut old), Ok(Swapped::Done));
/// assert!(table.get(&[1, 2], &mut old) && old == [8, 9, 10]);
/// # Ok::<(), lembokuj::TableError>(())
/// ```
///
/// # Panics
///
/// Its calls do if a key or a value has another number of words than the table's.
pub struct WordTable {
    calls: Box<dyn Calls>,
    key_words: usize,
    value_words: usize,
}

impl std::fmt::Debug for WordTable {
    fn fmt(&self, f: &mut std::fmt::Formatter<'_>) -> std::fmt::Result {
        write!(f, "WordTable {{ key_words: {}, value_words: {} }}", self.key_words, self.value_words)
    }
}

impl WordTable {
    /// How many pages a table of `keys` keys takes whose hashes are well distributed.
    #[must_use]
    pub fn pages(keys: u64, key_words: usize, value_words: usize) -> u32 {
        table_pages(keys, key_words, value_words.next_power_of_two())
    }

    /// An empty table in an area of `pages` pages of 4 KiB, and one handle; [`WordTable::handle`] makes the others, up to
    /// `callers` at a time.
    ///
    /// # Errors
    ///
    /// [`TableError`] has the causes; [`TableError::Words`] for numbers of words that are out of range.
    pub fn open(pages: u32, callers: u32, key_words: usize, value_words: usize) -> Result<WordTable, TableError> {
        WordTable::open_with_seed(pages, callers, key_words, value_words, 0)
    }

    /// As [`WordTable::open`], with a seed as in [`Table::open_with_seed`].
    ///
    /// # Errors
    ///
    /// As [`WordTable::open`].
    pub fn open_with_seed(
        pages: u32,
        callers: u32,
        key_words: usize,
        value_words: usize,
        seed: u64,
    ) -> Result<WordTable, TableError> {
        if !(1..=MOST_KEY_WORDS).contains(&key_words) || value_words > MOST_VALUE_WORDS {
            return Err(TableError::Words);
        }
        drop(reserved::<u8>(size_of::<Sized<1>>())?);
        macro_rules! by_size {
            ($($size:literal)*) => {
                match value_words.next_power_of_two() {
                    $($size => Box::new(Sized::<$size>::with_key_words(pages, callers, seed, key_words as u32)?) as Box<dyn Calls>,)*
                    _ => return Err(TableError::Words),
                }
            };
        }
        let calls = by_size!(1 2 4 8 16 32 64 128 256);
        Ok(WordTable {
            calls,
            key_words,
            value_words,
        })
    }

    /// One more handle, unless all that the table was made for are out. It takes a little memory.
    ///
    /// # Errors
    ///
    /// [`AllocError`].
    pub fn handle(&self) -> Result<Option<WordTable>, AllocError> {
        let Some(calls) = self.calls.handle()? else { return Ok(None) };
        Ok(Some(WordTable { calls, ..*self }))
    }

    /// How many words a key has, and a value.
    #[must_use]
    pub fn words(&self) -> (usize, usize) {
        (self.key_words, self.value_words)
    }

    fn check(&self, key: &[u64], values: &[&[u64]]) {
        assert_eq!(key.len(), self.key_words, "the words of a key of this table");
        assert!(values.iter().all(|value| value.len() == self.value_words), "the words of a value of this table");
    }

    /// Copies the value of a key. Whether there is one.
    pub fn get(&mut self, key: &[u64], value: &mut [u64]) -> bool {
        self.check(key, &[value]);
        self.calls.get(key, value)
    }

    /// Puts a value under a key, and copies the one that was there to `old`. Whether there was one.
    ///
    /// # Errors
    ///
    /// [`NoSpace`]: the key is new, and the table has no room for it. Nothing was changed.
    pub fn put(&mut self, key: &[u64], value: &[u64], old: &mut [u64]) -> Result<bool, NoSpace> {
        self.check(key, &[value, old]);
        self.calls.put(key, value, old)
    }

    /// Takes a key out, and copies the value that was there to `old`. Whether there was one.
    pub fn remove(&mut self, key: &[u64], old: &mut [u64]) -> bool {
        self.check(key, &[old]);
        self.calls.remove(key, old)
    }

    /// If the value of a key is `expected` (None: there is no such key), it becomes `new` (None: the key is taken out), in one
    /// step for all threads. What was there before, if there was something, is copied to `found`.
    ///
    /// # Errors
    ///
    /// As [`WordTable::put`].
    pub fn compare_and_put(
        &mut self,
        key: &[u64],
        expected: Option<&[u64]>,
        new: Option<&[u64]>,
        found: &mut [u64],
    ) -> Result<Swapped, NoSpace> {
        self.check(key, &[found]);
        expected.iter().chain(&new).for_each(|value| self.check(key, &[value]));
        self.calls.swap(key, expected, new, found)
    }

    /// How many keys there are: see [`Table::count`].
    #[must_use]
    pub fn count(&mut self) -> u64 {
        self.calls.count()
    }

    /// Calls `each` with the words of each key and value, as [`Table::for_each`] does.
    ///
    /// # Errors
    ///
    /// [`AllocError`]: some entries were not reached.
    pub fn for_each(&mut self, mut each: impl FnMut(&[u64], &[u64])) -> Result<(), AllocError> {
        for number in 0..Table::<u64, u64>::PARTITIONS {
            self.calls.each(number, self.value_words, &mut each)?;
        }
        Ok(())
    }
}
