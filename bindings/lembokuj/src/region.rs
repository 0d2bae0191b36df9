//! A region of words, each with one owner.
//!
//! What the calls beneath ask of a caller is kept here: a part is used with its own region, and only for words that it
//! owns, of which it keeps the ranges.

use crate::shared::{reserved, shared};
use crate::{MOST_WORDS, errors};
use rattle_std::alloc::Global;
use std::fmt;
use std::ops::Range;
use std::sync::Arc;

/// Why there is no region.
#[derive(Clone, Copy, Debug, PartialEq, Eq)]
#[non_exhaustive]
pub enum RegionError {
    /// No words, or more than 2^26.
    Words,
    /// There is no memory.
    Memory,
}

errors!(RegionError {
    Words => "a region has 1 to 67108864 words",
    Memory => "out of memory",
});

/// Why a call of a part changed nothing.
#[derive(Clone, Copy, Debug, PartialEq, Eq)]
#[non_exhaustive]
pub enum PartError {
    /// The part does not own these words.
    NotHere,
    /// There is no memory.
    Memory,
}

errors!(PartError {
    NotHere => "the part does not own these words",
    Memory => "out of memory",
});

/// The only owner of some words of a region: nobody else reads or changes them.
///
/// ```
/// use lembokuj::Part;
///
/// let mut low = Part::of_new_region(64)?;
/// let mut high = low.split(32..64)?;
/// let other = std::thread::spawn(move || {
///     high.store(40, 8)?;
///     Ok::<_, lembokuj::PartError>(high)
/// });
/// low.store(3, 7)?;
/// low.join(other.join().unwrap()?).unwrap();
/// let mut frozen = low.freeze()?;
/// let mut second = frozen.share();
/// assert_eq!((frozen.load(3)?, second.load(40)?), (7, 8));
/// # Ok::<(), Box<dyn std::error::Error>>(())
/// ```
pub struct Part {
    region: Arc<region_words::Region>,
    part: region_words::Part,
    owned: Vec<Range<u64>>,
}

impl fmt::Debug for Part {
    fn fmt(&self, f: &mut fmt::Formatter<'_>) -> fmt::Result {
        f.debug_struct("Part").field("owned", &self.owned).finish_non_exhaustive()
    }
}

/// Whether one of the ranges holds the word.
fn holds(owned: &[Range<u64>], at: u64) -> Result<(), PartError> {
    owned.iter().any(|range| range.contains(&at)).then_some(()).ok_or(PartError::NotHere)
}

impl Part {
    /// The part that owns all `words` words of a new region, all 0. It takes memory for them.
    ///
    /// # Errors
    ///
    /// [`RegionError`] has the causes.
    pub fn of_new_region(words: u64) -> Result<Part, RegionError> {
        if !(1..=MOST_WORDS).contains(&words) {
            return Err(RegionError::Words);
        }
        let made = region_words::Region::new(Global, words as usize);
        let (region, part) = made.map_err(|_| RegionError::Memory)?;
        let mut owned = reserved(1).map_err(|_| RegionError::Memory)?;
        owned.push(0..words);
        Ok(Part {
            region: shared(region).map_err(|_| RegionError::Memory)?,
            part,
            owned,
        })
    }

    /// The ranges of words that it owns.
    #[must_use]
    pub fn owned(&self) -> &[Range<u64>] {
        &self.owned
    }

    /// A word. One load.
    ///
    /// # Errors
    ///
    /// [`PartError::NotHere`].
    pub fn load(&mut self, at: u64) -> Result<u64, PartError> {
        holds(&self.owned, at)?;
        Ok(self.part.load(&self.region, at))
    }

    /// Changes a word. One store.
    ///
    /// # Errors
    ///
    /// [`PartError::NotHere`].
    pub fn store(&mut self, at: u64, value: u64) -> Result<(), PartError> {
        holds(&self.owned, at)?;
        self.part.store(&self.region, at, value);
        Ok(())
    }

    /// A part with the words of a range, all of which have to lie in one of this part's ranges; this one keeps the
    /// others. It takes memory for the ranges.
    ///
    /// # Errors
    ///
    /// [`PartError::NotHere`], [`PartError::Memory`].
    pub fn split(&mut self, range: Range<u64>) -> Result<Part, PartError> {
        let at = self.owned.iter().position(|own| own.start <= range.start && range.end <= own.end);
        let at = at.filter(|_| range.start <= range.end).ok_or(PartError::NotHere)?;
        let mut owned = reserved(1).map_err(|_| PartError::Memory)?;
        self.owned.try_reserve(1).map_err(|_| PartError::Memory)?;
        let own = self.owned.swap_remove(at);
        let rests = [own.start..range.start, range.end..own.end];
        self.owned.extend(rests.into_iter().filter(|rest| !rest.is_empty()));
        let part = self.part.split(&self.region, range.start, range.end - range.start);
        owned.push(range);
        Ok(Part {
            region: Arc::clone(&self.region),
            part,
            owned,
        })
    }

    /// Takes in the words of another part of the same region. It takes memory for the ranges.
    ///
    /// # Errors
    ///
    /// The other part comes back if it is of another region, or there is no memory.
    pub fn join(&mut self, other: Part) -> Result<(), Part> {
        if !Arc::ptr_eq(&self.region, &other.region) || self.owned.try_reserve(other.owned.len()).is_err() {
            return Err(other);
        }
        self.part.join(&self.region, other.part);
        self.owned.extend(other.owned);
        Ok(())
    }

    /// From now on its words never change, and many may read them. A store for each of its words.
    ///
    /// # Errors
    ///
    /// [`PartError::Memory`]; then the part's words are lost to the region.
    pub fn freeze(self) -> Result<Frozen, PartError> {
        let Part { region, mut part, owned } = self;
        let owned = shared(owned).map_err(|_| PartError::Memory)?;
        let mut frozen = part.split(&region, 0, 0).freeze(&region, 0, 0);
        for range in owned.iter() {
            let (from, len) = (range.start, range.end - range.start);
            let row = part.split(&region, from, len).freeze(&region, from, len);
            frozen.gather(&region, row);
        }
        Ok(Frozen { region, frozen, owned })
    }
}

/// Words that change no more. Each reader has its own share.
pub struct Frozen {
    region: Arc<region_words::Region>,
    frozen: region_words::Frozen,
    owned: Arc<Vec<Range<u64>>>,
}

impl fmt::Debug for Frozen {
    fn fmt(&self, f: &mut fmt::Formatter<'_>) -> fmt::Result {
        f.debug_struct("Frozen").field("owned", &self.owned).finish_non_exhaustive()
    }
}

impl Frozen {
    /// A word. One load.
    ///
    /// # Errors
    ///
    /// [`PartError::NotHere`].
    pub fn load(&mut self, at: u64) -> Result<u64, PartError> {
        holds(&self.owned, at)?;
        Ok(self.frozen.load(&self.region, at))
    }

    /// A share for another reader.
    #[must_use]
    pub fn share(&mut self) -> Frozen {
        Frozen {
            region: Arc::clone(&self.region),
            frozen: self.frozen.share(&self.region),
            owned: Arc::clone(&self.owned),
        }
    }
}
