//! An area: chunks of words for many callers.
//!
//! What the calls beneath ask of a caller is kept here: a pass and a chunk are used with their own area and region, a
//! pass by one call at a time, and a size is from 1 to 2^30 bytes.

use crate::errors;
use crate::rows::chunk_calls;
use crate::shared::{reserved, shared};
use dsa_area::{AreaPass, area_words};
use rattle_std::alloc::Global;
use region_words::Region;
use std::fmt;
use std::sync::{Arc, Mutex, PoisonError};

/// The most pages of an area: 256 MiB of words.
pub(crate) const MOST_PAGES: u32 = 65_536;

/// The most callers of one object.
pub(crate) const MOST_CALLERS: u32 = 4_096;

/// The longest request, in bytes.
const MOST_BYTES: u64 = 1 << 30;

/// Why there is no area, or, of one that processes share, why a call was refused.
#[derive(Clone, Copy, Debug, PartialEq, Eq)]
#[non_exhaustive]
pub enum AreaError {
    /// More than 65,536 pages.
    Pages,
    /// No callers, or more than 4,096.
    Callers,
    /// There is no memory.
    Memory,
    /// Of an area that processes share: the pages that the request takes are not free in a row, or more than 2^28 bytes were
    /// asked for.
    NoSpace,
    /// Of an area that processes share: no chunk of this area was posted by the ticket, or it was fetched already; or the chunk is
    /// of another area.
    Stranger,
    /// Of an area that processes share: a process ended while it had a lock that the call needs, and what that guards is lost.
    OwnerDied,
    /// Of an area that processes share: the region is damaged.
    Damaged,
}

errors!(AreaError {
    Pages => "an area has at most 65536 pages",
    Callers => "an area has 1 to 4096 callers",
    Memory => "out of memory",
    NoSpace => "no space",
    Stranger => "no chunk of this area, or no ticket of one",
    OwnerDied => "a process ended while it had the lock",
    Damaged => "the region is damaged",
});

/// The area has no row of free pages that is long enough for the request.
#[derive(Clone, Copy, Debug, PartialEq, Eq)]
pub struct NoSpace {
    /// The pages that were wanted: 16 for a chunk of up to 8,192 bytes, which is cut from that number. For a request of more than
    /// 2^44 bytes it is `u32::MAX`.
    pub pages: u32,
    /// The pages of the longest row that was free when the area looked.
    pub largest: u32,
}

impl fmt::Display for NoSpace {
    fn fmt(&self, f: &mut fmt::Formatter<'_>) -> fmt::Result {
        write!(f, "no space: {} pages in a row are wanted, {} are free", self.pages, self.largest)
    }
}

impl std::error::Error for NoSpace {}

impl From<dsa_area::NoSpace> for NoSpace {
    fn from(refused: dsa_area::NoSpace) -> NoSpace {
        NoSpace {
            pages: refused.pages,
            largest: refused.largest,
        }
    }
}

/// A new area in a new region, with `each` passes for each caller.
pub(crate) fn new_area(pages: u32, callers: u32, each: u32) -> Result<(Region, dsa_area::Area, Vec<AreaPass>), AreaError> {
    if pages > MOST_PAGES {
        return Err(AreaError::Pages);
    }
    if !(1..=MOST_CALLERS).contains(&callers) {
        return Err(AreaError::Callers);
    }
    let words = area_words(pages);
    // Word 0 stands for no place.
    let (region, mut part) = Region::new(Global, words as usize + 1).map_err(|_| AreaError::Memory)?;
    let chunk = part.split_chunk(&region, 1, words);
    let (area, passes) = dsa_area::Area::new(Global, &region, chunk, pages, callers * each).map_err(|_| AreaError::Memory)?;
    Ok((region, area, passes.into_std()))
}

/// The region and the area, which all callers share, and the passes of the handles that are not out.
struct Shared {
    region: Region,
    area: dsa_area::Area,
    spare: Mutex<Vec<Passes>>,
}

/// How many passes a caller has: one for the calls of its handle, and one for the chunks that are dropped.
const PASSES_EACH: u32 = 2;

/// What a handle calls with. The second one is lent by who drops a chunk, so its lock is free nearly always.
struct Passes {
    calls: AreaPass,
    drops: Arc<Mutex<AreaPass>>,
}

impl Shared {
    /// Takes a chunk back. That the area knows it is certain: it gave it, and nobody has it twice.
    fn take_back(&self, pass: &mut AreaPass, chunk: region_words::Chunk) {
        let _ = self.area.free(&crate::HOST, &self.region, pass, chunk);
    }
}

/// A handle of an area, from which its caller takes chunks.
///
/// ```
/// use lembokuj::Area;
///
/// let mut area = Area::open(64, 2)?;
/// let mut chunk = area.alloc(24).unwrap();
/// chunk.write(0, &[5, 6, 7])?;
/// assert_eq!((chunk.load(2), chunk.load(3)), (Some(7), None));
/// // A chunk may go to another thread; if it is dropped, its words go back to the area.
/// std::thread::spawn(move || drop(chunk)).join().unwrap();
/// // There are two handles, and one is out.
/// let mut second = area.handle().ok_or("no handle")?;
/// assert!(second.alloc_bytes(b"a string of bytes").is_ok() && area.handle().is_none());
/// # Ok::<(), Box<dyn std::error::Error>>(())
/// ```
pub struct Area {
    shared: Arc<Shared>,
    /// Some up to the drop.
    passes: Option<Passes>,
}

impl fmt::Debug for Area {
    fn fmt(&self, f: &mut fmt::Formatter<'_>) -> fmt::Result {
        f.write_str("Area { .. }")
    }
}

impl Area {
    /// An area of `pages` pages of 4 KiB, and a handle for each of its callers. It takes memory for the pages twice over,
    /// 1.6 % of them for their records, and a few words for each caller. Chunks of up to 8,192 bytes are cut from 16 pages at a
    /// time, for each of 36 size classes. Such 16 pages go back when all of their chunks have, except those that the class used last.
    ///
    /// # Errors
    ///
    /// [`AreaError`] has the causes.
    pub fn new(pages: u32, callers: u32) -> Result<Vec<Area>, AreaError> {
        let first = Area::open(pages, callers)?;
        let mut handles = reserved(callers as usize).map_err(|_| AreaError::Memory)?;
        handles.extend(std::iter::from_fn(|| first.handle()));
        handles.push(first);
        Ok(handles)
    }

    /// The same with one handle; [`Area::handle`] makes the others, up to `callers` at a time.
    ///
    /// # Errors
    ///
    /// As [`Area::new`].
    pub fn open(pages: u32, callers: u32) -> Result<Area, AreaError> {
        let (region, area, passes) = new_area(pages, callers, PASSES_EACH)?;
        let mut spare = reserved(callers as usize).map_err(|_| AreaError::Memory)?;
        let mut passes = passes.into_iter();
        while let Some((calls, drops)) = passes.next().zip(passes.next()) {
            let drops = shared(Mutex::new(drops)).map_err(|_| AreaError::Memory)?;
            spare.push(Passes { calls, drops });
        }
        let passes = spare.pop();
        let common = Shared {
            region,
            area,
            spare: Mutex::new(spare),
        };
        let shared = shared(common).map_err(|_| AreaError::Memory)?;
        Ok(Area { shared, passes })
    }

    /// One more handle, unless all that the area was made for are out. A handle that is dropped makes room for another.
    #[must_use]
    pub fn handle(&self) -> Option<Area> {
        let passes = self.shared.spare.lock().unwrap_or_else(PoisonError::into_inner).pop()?;
        Some(Area {
            shared: Arc::clone(&self.shared),
            passes: Some(passes),
        })
    }

    /// A chunk of at least `bytes` bytes, and of at least 1: up to 8,192 bytes of the least size class that holds it, which above
    /// 24 bytes is at most a third more, and otherwise of whole pages of 4 KiB. It may wait for the lock of one size class and for that of the pages.
    ///
    /// **Its words hold whatever their last owner left there**, at first 0: [`Area::alloc_zeroed`] clears them.
    ///
    /// # Errors
    ///
    /// [`NoSpace`] if no row of free pages is long enough.
    pub fn alloc(&mut self, bytes: u64) -> Result<Chunk, NoSpace> {
        let Shared { region, area, .. } = &*self.shared;
        let Some(passes) = &mut self.passes else { unreachable!("a handle has its passes up to its drop") };
        // No area has the pages of the longest request, so a longer one is refused too, and told the longest row.
        let granted = area.alloc(&crate::HOST, region, &mut passes.calls, bytes.clamp(1, MOST_BYTES));
        let chunk = granted.map_err(|refused| NoSpace {
            pages: if bytes > MOST_BYTES { pages_of(bytes) } else { refused.pages },
            largest: refused.largest,
        })?;
        Ok(Chunk {
            words: chunk.bytes / 8,
            chunk: Some(chunk),
            shared: Arc::clone(&self.shared),
            drops: Arc::clone(&passes.drops),
        })
    }

    /// As [`Area::alloc`], with all words 0. It costs a store a word.
    ///
    /// # Errors
    ///
    /// As [`Area::alloc`].
    pub fn alloc_zeroed(&mut self, bytes: u64) -> Result<Chunk, NoSpace> {
        let mut chunk = self.alloc(bytes)?;
        chunk.as_words_mut().fill(0);
        Ok(chunk)
    }

    /// A chunk that begins with these bytes; what comes after them in its last words is 0 up to the end of a word, and then
    /// whatever lay there.
    ///
    /// # Errors
    ///
    /// As [`Area::alloc`].
    pub fn alloc_bytes(&mut self, bytes: &[u8]) -> Result<Chunk, NoSpace> {
        let mut chunk = self.alloc(bytes.len() as u64)?;
        let (front, rest) = chunk.as_bytes_mut().split_at_mut(bytes.len());
        front.copy_from_slice(bytes);
        rest[..bytes.len().next_multiple_of(8) - bytes.len()].fill(0);
        Ok(chunk)
    }

    /// Gives a chunk back through this handle, which is as dropping it, but takes none of the locks under which chunks
    /// are dropped. A chunk of another area is dropped: it goes back to its own.
    pub fn free(&mut self, mut chunk: Chunk) {
        if self.is_home_of(&chunk)
            && let Some(inner) = chunk.chunk.take()
            && let Some(passes) = &mut self.passes
        {
            self.shared.take_back(&mut passes.calls, inner);
        }
    }

    /// Whether a chunk is of this handle's area.
    #[must_use]
    pub fn is_home_of(&self, chunk: &Chunk) -> bool {
        Arc::ptr_eq(&self.shared, &chunk.shared)
    }
}

impl Drop for Area {
    fn drop(&mut self) {
        let passes = self.passes.take();
        self.shared.spare.lock().unwrap_or_else(PoisonError::into_inner).extend(passes);
    }
}

/// The pages of a request.
fn pages_of(bytes: u64) -> u32 {
    u32::try_from(bytes.div_ceil(4096)).unwrap_or(u32::MAX)
}

/// A chunk of an area. Its words are only its holder's; if it is dropped they go back. Words count from 0, and its bytes are those of
/// its words as the machine lays them out.
///
/// They are plain memory, so a chunk is a slice of words or bytes too:
///
/// ```
/// use lembokuj::Area;
///
/// let mut area = Area::open(64, 1)?;
/// let mut chunk = area.alloc_zeroed(100)?;
/// chunk.as_words_mut()[..3].copy_from_slice(&[3, 1, 2]);
/// chunk.as_words_mut()[..3].sort_unstable();
/// assert_eq!(chunk.as_words()[..4], [1, 2, 3, 0]);
/// chunk.as_bytes_mut()[40..45].copy_from_slice(b"bytes");
/// assert!(chunk.as_bytes().len() >= 100 && chunk.as_bytes()[40..].starts_with(b"bytes"));
/// # Ok::<(), Box<dyn std::error::Error>>(())
/// ```
pub struct Chunk {
    /// Some up to the drop.
    chunk: Option<region_words::Chunk>,
    words: u64,
    shared: Arc<Shared>,
    drops: Arc<Mutex<AreaPass>>,
}

impl fmt::Debug for Chunk {
    fn fmt(&self, f: &mut fmt::Formatter<'_>) -> fmt::Result {
        write!(f, "Chunk {{ words: {} }}", self.words)
    }
}

impl Chunk {
    /// How many words of 8 bytes it has: those of its size class or its pages, and not only those that were asked for.
    #[must_use]
    pub fn words(&self) -> u64 {
        self.words
    }

    /// Its words, in place.
    #[must_use]
    pub fn as_words(&self) -> &[u64] {
        self.chunk.as_ref().map_or(&[], |chunk| chunk.as_words(&self.shared.region))
    }

    /// Its words in place, to be changed.
    #[must_use]
    pub fn as_words_mut(&mut self) -> &mut [u64] {
        self.chunk.as_mut().map_or(&mut [], |chunk| chunk.as_words_mut(&self.shared.region))
    }

    /// Its bytes, in place: eight for each word.
    #[must_use]
    pub fn as_bytes(&self) -> &[u8] {
        self.chunk.as_ref().map_or(&[], |chunk| chunk.as_bytes(&self.shared.region))
    }

    /// Its bytes in place, to be changed.
    #[must_use]
    pub fn as_bytes_mut(&mut self) -> &mut [u8] {
        self.chunk.as_mut().map_or(&mut [], |chunk| chunk.as_bytes_mut(&self.shared.region))
    }

    chunk_calls!();
}

impl Drop for Chunk {
    fn drop(&mut self) {
        if let Some(chunk) = self.chunk.take() {
            let mut pass = self.drops.lock().unwrap_or_else(PoisonError::into_inner);
            self.shared.take_back(&mut pass, chunk);
        }
    }
}
