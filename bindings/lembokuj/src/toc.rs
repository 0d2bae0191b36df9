//! A table of contents: chunks by keys, which all threads read.
//!
//! What the calls beneath ask of a caller is kept here: a chunk is used with its own table, and a word is read only if
//! it belongs to a chunk that was kept.

use crate::shared::shared;
use crate::{MOST_WORDS, NoWord, errors};
use rattle_std::alloc::Global;
use region_words::Region;
use shm_toc::{FrozenToc, TocAnswer};
use std::collections::HashMap;
use std::fmt;
use std::sync::Arc;

/// The bytes of a table that its head takes, and to which sizes are rounded up.
const UNIT: u64 = 32;

/// Why a call of a table of contents changed nothing.
#[derive(Clone, Copy, Debug, PartialEq, Eq)]
#[non_exhaustive]
pub enum TocError {
    /// The table has fewer than 32 bytes, or 2^29 or more; or a chunk has none, or more than 2^40.
    Size,
    /// There is no memory.
    Memory,
    /// The table has no room for the chunk or for the key.
    Full,
    /// The key is there already.
    KeyThere,
    /// The chunk is of another table.
    OtherTable,
}

errors!(TocError {
    Size => "the size is out of range",
    Memory => "out of memory",
    Full => "the table of contents is full",
    KeyThere => "the key is there already",
    OtherTable => "the chunk is of another table",
});

impl From<TocAnswer> for TocError {
    fn from(answer: TocAnswer) -> TocError {
        match answer {
            TocAnswer::TocFull { .. } => TocError::Full,
            TocAnswer::KeyThere { .. } => TocError::KeyThere,
        }
    }
}

/// A table of contents that its one holder fills.
///
/// ```
/// use lembokuj::TocBuilder;
///
/// let mut builder = TocBuilder::new(1 << 12)?;
/// let mut sizes = builder.allocate(16)?;
/// sizes.store(0, 640)?;
/// sizes.store(1, 480)?;
/// builder.keep(5, sizes)?;
/// let mut toc = builder.freeze()?;
/// let mut share = toc.share();
/// std::thread::spawn(move || assert_eq!(share.load(5, 1), Some(480))).join().unwrap();
/// assert_eq!(toc.load(5, 0), Some(640));
/// assert_eq!(toc.load(6, 0), None);
/// # Ok::<(), Box<dyn std::error::Error>>(())
/// ```
pub struct TocBuilder {
    region: Arc<Region>,
    toc: shm_toc::Toc,
    kept: HashMap<u64, u64>,
}

impl fmt::Debug for TocBuilder {
    fn fmt(&self, f: &mut fmt::Formatter<'_>) -> fmt::Result {
        f.write_str("TocBuilder { .. }")
    }
}

/// A chunk of a table that is being filled. Only its holder uses its words.
pub struct TocChunk {
    region: Arc<Region>,
    chunk: region_words::Chunk,
}

impl fmt::Debug for TocChunk {
    fn fmt(&self, f: &mut fmt::Formatter<'_>) -> fmt::Result {
        write!(f, "TocChunk {{ words: {} }}", self.words())
    }
}

impl TocChunk {
    /// How many words of 8 bytes it has: what was asked for, rounded up to 32 bytes.
    #[must_use]
    pub fn words(&self) -> u64 {
        self.chunk.bytes / 8
    }

    /// The word at a place, if it has one there.
    #[must_use]
    pub fn load(&mut self, at: u64) -> Option<u64> {
        (at < self.words()).then(|| self.chunk.load(&self.region, at))
    }

    /// Changes the word at a place.
    ///
    /// # Errors
    ///
    /// [`NoWord`].
    pub fn store(&mut self, at: u64, value: u64) -> Result<(), NoWord> {
        if at >= self.words() {
            return Err(NoWord);
        }
        self.chunk.store(&self.region, at, value);
        Ok(())
    }
}

impl TocBuilder {
    /// An empty table of `bytes` bytes, rounded up to 32: 32 for its head, 16 for each key, and each chunk rounded up to
    /// 32. It takes memory for them.
    ///
    /// # Errors
    ///
    /// [`TocError::Size`], [`TocError::Memory`].
    pub fn new(bytes: u64) -> Result<TocBuilder, TocError> {
        let words = bytes.div_ceil(UNIT) * (UNIT / 8);
        if words == 0 || words >= MOST_WORDS {
            return Err(TocError::Size);
        }
        let (region, part) = Region::new(Global, words as usize).map_err(|_| TocError::Memory)?;
        let toc = shm_toc::Toc::create(&region, part, words, 0);
        Ok(TocBuilder {
            region: shared(region).map_err(|_| TocError::Memory)?,
            toc,
            kept: HashMap::new(),
        })
    }

    /// The bytes that are left for keys and chunks.
    #[must_use]
    pub fn free_bytes(&self) -> u64 {
        self.toc.free_bytes()
    }

    /// A chunk of at least `bytes` bytes.
    ///
    /// # Errors
    ///
    /// [`TocError::Size`], [`TocError::Full`].
    pub fn allocate(&mut self, bytes: u64) -> Result<TocChunk, TocError> {
        if !(1..=1 << 40).contains(&bytes) {
            return Err(TocError::Size);
        }
        Ok(TocChunk {
            chunk: self.toc.allocate(&self.region, bytes)?,
            region: Arc::clone(&self.region),
        })
    }

    /// Enters a chunk under a key, for all to read. It takes memory for the key. If it is refused the chunk's words are lost to the
    /// table.
    ///
    /// # Errors
    ///
    /// [`TocError::KeyThere`], [`TocError::Full`], [`TocError::OtherTable`], [`TocError::Memory`].
    pub fn keep(&mut self, key: u64, chunk: TocChunk) -> Result<(), TocError> {
        if !Arc::ptr_eq(&self.region, &chunk.region) {
            return Err(TocError::OtherTable);
        }
        self.kept.try_reserve(1).map_err(|_| TocError::Memory)?;
        let words = chunk.words();
        self.toc.insert(&self.region, key, chunk.chunk.at)?;
        self.toc.keep(&self.region, chunk.chunk);
        self.kept.insert(key, words);
        Ok(())
    }

    /// From now on nothing in it changes, and many may read it.
    ///
    /// # Errors
    ///
    /// [`TocError::Memory`]; then the table is lost.
    pub fn freeze(self) -> Result<Toc, TocError> {
        let kept = shared(self.kept).map_err(|_| TocError::Memory)?;
        Ok(Toc {
            toc: self.toc.freeze(&self.region),
            region: self.region,
            kept,
        })
    }
}

/// A share of a table of contents, by which one thread reads it.
pub struct Toc {
    region: Arc<Region>,
    toc: FrozenToc,
    kept: Arc<HashMap<u64, u64>>,
}

impl fmt::Debug for Toc {
    fn fmt(&self, f: &mut fmt::Formatter<'_>) -> fmt::Result {
        write!(f, "Toc {{ keys: {} }}", self.kept.len())
    }
}

impl Toc {
    /// How many words the chunk under a key has, if there is one.
    #[must_use]
    pub fn words(&self, key: u64) -> Option<u64> {
        self.kept.get(&key).copied()
    }

    /// A word of the chunk under a key. Besides that load, one for each key that was entered before it.
    #[must_use]
    pub fn load(&mut self, key: u64, at: u64) -> Option<u64> {
        self.words(key).filter(|words| at < *words)?;
        let place = self.toc.lookup(&self.region, key)?;
        Some(self.toc.load(&self.region, place.plus(at)))
    }

    /// A share for another thread.
    #[must_use]
    pub fn share(&mut self) -> Toc {
        let share = self.toc.share(&self.region);
        let Ok(toc) = FrozenToc::attach(share, &self.region, 0) else {
            unreachable!("the table was made with this number")
        };
        Toc {
            toc,
            region: Arc::clone(&self.region),
            kept: Arc::clone(&self.kept),
        }
    }
}
