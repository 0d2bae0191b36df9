//! Chunks of words that processes hand to one another.
//!
//! A chunk's words are the slots of its numbers in the region. The two first of these numbers have words besides, which nothing else
//! uses: the first one says who has the chunk, the second one how long it is. They are 0 as long as nobody has it.

use crate::processes::directory::{Entry, Object};
use crate::AreaError;
use crate::link::Damage;
use crate::processes::map::{Map, place_of};
use crate::rows::chunk_calls;
use crate::processes::region::{FREE, Handle, Region, TakeError, has_ended};
use crate::processes::sys::PROCESS_BITS;
use dsa_area::AreaPass;
use region_words::Part;
use rel_pointer::RelPtr;
use std::collections::HashMap;
use std::fmt;
use std::os::unix::fs::FileExt;
use std::sync::Arc;
use std::sync::atomic::Ordering::SeqCst;

impl From<Damage> for AreaError {
    fn from(_: Damage) -> AreaError {
        AreaError::Damaged
    }
}

/// The mark of the word that says who has a chunk, with a ticket's number, while nobody has it.
const POSTED: u64 = 1 << 63;
/// The mark of the word that says how long a chunk is, with its bytes.
const LENGTH: u64 = 1 << 62;

/// A chunk has the two words.
const LEAST_BYTES: u64 = 16;
const MOST_BYTES: u64 = 1 << 28;
const PAGE_WORDS: u64 = 512;

/// One caller's handle. If it is dropped, another process may take it.
pub struct Area {
    handle: Handle,
    area: dsa_area::Area,
    pass: AreaPass,
}

/// A chunk of words, which this process has. One that is dropped stays live, and nobody has it. It holds at first whatever its
/// words held before.
pub struct Chunk {
    map: Arc<Map>,
    area_key: u64,
    inner: region_words::Chunk,
}

/// A chunk on its way to another process: plain numbers, good for one fetch.
#[derive(Clone, Copy, Debug, PartialEq, Eq)]
#[repr(C)]
pub struct Ticket {
    /// The region's number of the chunk's first word.
    pub place: u64,
    /// All bytes of the chunk.
    pub bytes: u64,
    /// The number that no other ticket of the region has.
    pub number: u64,
}

impl fmt::Debug for Area {
    fn fmt(&self, f: &mut fmt::Formatter<'_>) -> fmt::Result {
        f.debug_struct("Area").field("key", &self.handle.entry.key).finish_non_exhaustive()
    }
}

impl fmt::Debug for Chunk {
    fn fmt(&self, f: &mut fmt::Formatter<'_>) -> fmt::Result {
        f.debug_struct("Chunk").field("words", &self.words()).finish_non_exhaustive()
    }
}

impl Ticket {
    /// The bytes of a ticket.
    pub const BYTES: usize = 24;

    /// As bytes, for a queue.
    #[must_use]
    pub fn to_bytes(self) -> [u8; Ticket::BYTES] {
        let mut bytes = [0; Ticket::BYTES];
        for (to, number) in bytes.chunks_exact_mut(8).zip([self.place, self.bytes, self.number]) {
            to.copy_from_slice(&number.to_le_bytes());
        }
        bytes
    }

    /// Of such bytes. None if they are more or fewer.
    #[must_use]
    pub fn from_bytes(bytes: &[u8]) -> Option<Ticket> {
        let bytes: &[u8; Ticket::BYTES] = bytes.try_into().ok()?;
        let number = |at: usize| u64::from_le_bytes(std::array::from_fn(|i| bytes[8 * at + i]));
        Some(Ticket {
            place: number(0),
            bytes: number(1),
            number: number(2),
        })
    }
}

/// The area of an entry, as a process has it.
pub(crate) fn attached(map: &Map, object: &Object, callers: u32) -> Option<dsa_area::Area> {
    let Object::Area(site) = object else { return None };
    // SAFETY: the directory says that it is there, and was looked at; the layouts agree, by the head's sum; no value of its
    // has a pointer.
    Some(unsafe { dsa_area::Area::attach(&map.mapping, site, callers) })
}

impl Region {
    /// A handle of an area.
    ///
    /// # Errors
    ///
    /// [`TakeError::NoKey`], [`TakeError::Taken`].
    pub fn area(&self, key: u64) -> Result<Area, TakeError> {
        let entry = self.map.directory.find(key).ok_or(TakeError::NoKey)?;
        Area::take(&self.map, entry)
    }
}

impl Area {
    fn take(map: &Arc<Map>, entry: &Arc<Entry>) -> Result<Area, TakeError> {
        let area = attached(map, &entry.object, entry.handles).ok_or(TakeError::NoKey)?;
        let handle = Handle::take_any(map, entry)?;
        let pass = AreaPass::taken(handle.number);
        Ok(Area { handle, area, pass })
    }

    /// One more handle, for this process; None if all that the area was made for are with processes.
    #[must_use]
    pub fn handle(&self) -> Option<Area> {
        Area::take(&self.handle.map, &self.handle.entry).ok()
    }

    /// Whether a chunk of this process is of this area.
    #[must_use]
    pub fn is_home_of(&self, chunk: &Chunk) -> bool {
        chunk.area_key == self.handle.entry.key && Arc::ptr_eq(&chunk.map, &self.handle.map)
    }

    /// As [`Area::alloc`], with words that are 0.
    ///
    /// # Errors
    ///
    /// As [`Area::alloc`].
    pub fn alloc_zeroed(&mut self, bytes: u64) -> Result<Chunk, AreaError> {
        let mut chunk = self.alloc(bytes)?;
        chunk.as_words_mut().fill(0);
        Ok(chunk)
    }

    /// A chunk of this many bytes or more, which holds whatever its words held before. It may wait for the lock of one size class and
    /// for that of the pages.
    ///
    /// # Errors
    ///
    /// [`AreaError::NoSpace`], [`AreaError::OwnerDied`], [`AreaError::Damaged`].
    pub fn alloc(&mut self, bytes: u64) -> Result<Chunk, AreaError> {
        if bytes > MOST_BYTES {
            return Err(AreaError::NoSpace);
        }
        let Area { handle, area, pass } = self;
        let map = Arc::clone(&handle.map);
        let asked = map.guard(|| area.alloc_while(&map.region, pass, bytes.max(LEAST_BYTES), &|n| handle.lives(n)))?;
        match asked {
            Ok(Ok(inner)) => {
                let at = inner.at.word();
                map.region.word(at + 1).store(LENGTH | inner.bytes, SeqCst);
                map.region.word(at).store(map.me.number(), SeqCst);
                Ok(Chunk {
                    area_key: handle.entry.key,
                    map,
                    inner,
                })
            }
            Ok(Err(_)) => Err(AreaError::NoSpace),
            Err(_) => Err(AreaError::OwnerDied),
        }
    }

    /// Gives a chunk back; anybody may have asked for it. If it is refused, it stays live, and nobody has it.
    ///
    /// # Errors
    ///
    /// [`AreaError::Stranger`] for a chunk of another area, [`AreaError::OwnerDied`], [`AreaError::Damaged`].
    pub fn free(&mut self, chunk: Chunk) -> Result<(), AreaError> {
        if !self.is_home_of(&chunk) {
            return Err(AreaError::Stranger);
        }
        self.take_back(chunk.inner)
    }

    /// Gives back a chunk that this process has. Its words say first that nobody has it: a process that ends in between leaves
    /// a chunk that stays live, and never one that is given back twice.
    fn take_back(&mut self, chunk: region_words::Chunk) -> Result<(), AreaError> {
        let Area { handle, area, pass } = self;
        let map = Arc::clone(&handle.map);
        let at = chunk.at.word();
        map.region.word(at).store(0, SeqCst);
        map.region.word(at + 1).store(0, SeqCst);
        let freed = map.guard(|| area.free_while(&map.region, pass, chunk, &|n| handle.lives(n)))?;
        match freed {
            Ok(Ok(())) => Ok(()),
            Ok(Err(_)) => Err(AreaError::Stranger),
            Err(_) => Err(AreaError::OwnerDied),
        }
    }

    /// The chunk of a ticket, which this process has from now on. One compare-and-exchange.
    ///
    /// # Errors
    ///
    /// [`AreaError::Stranger`].
    pub fn fetch(&mut self, ticket: Ticket) -> Result<Chunk, AreaError> {
        let Object::Area(site) = &self.handle.entry.object else {
            return Err(AreaError::Stranger);
        };
        let end = end_of(site);
        let fits = ticket.place >= site.first && ticket.number < LENGTH;
        if !fits || !is_chunk(ticket.place, ticket.bytes, end) {
            return Err(AreaError::Stranger);
        }
        let map = &self.handle.map;
        if map.region.word(ticket.place + 1).load(SeqCst) != LENGTH | ticket.bytes {
            return Err(AreaError::Stranger);
        }
        let word = map.region.word(ticket.place);
        let won = word.compare_exchange(POSTED | ticket.number, map.me.number(), SeqCst, SeqCst);
        won.map_err(|_| AreaError::Stranger)?;
        Ok(Chunk {
            map: Arc::clone(map),
            area_key: self.handle.entry.key,
            inner: taken(ticket.place, ticket.bytes),
        })
    }

    /// Gives back the chunks that processes had which have ended, and says how many went. It reads a word for each word of the
    /// area.
    pub(crate) fn sweep(&mut self) -> u64 {
        let Object::Area(site) = self.handle.entry.object.clone() else { return 0 };
        let map = Arc::clone(&self.handle.map);
        let mut swept = 0;
        // Whether a process has ended, of those that have chunks.
        let mut ended = HashMap::new();
        for page in 0..u64::from(site.pages) {
            let first = site.first + PAGE_WORDS * page;
            // By a call of the system, since a page that nobody has stored to would take memory if it were loaded.
            let mut bytes = [0; 8 * PAGE_WORDS as usize];
            if map.file.read_exact_at(&mut bytes, place_of(first)).is_err() {
                break;
            }
            let words = bytes.chunks_exact(8).map(|word| u64::from_le_bytes(std::array::from_fn(|i| word[i])));
            for (at, owner) in (first..).zip(words) {
                let is_claim = owner != 0 && owner >> PROCESS_BITS == 0;
                if is_claim && *ended.entry(owner).or_insert_with(|| has_ended(&map, owner)) {
                    swept += u64::from(self.sweep_one(at, owner, end_of(&site)));
                }
            }
        }
        swept
    }

    /// Gives back the chunk at a place, if the process that had it, which has ended, is still the one that its word names.
    fn sweep_one(&mut self, at: u64, owner: u64, end: u64) -> bool {
        let map = Arc::clone(&self.handle.map);
        let length = map.region.word((at + 1).min(end - 1)).load(SeqCst);
        let bytes = length ^ LENGTH;
        if !is_chunk(at, bytes, end) || map.region.word(at).compare_exchange(owner, map.me.number(), SeqCst, SeqCst).is_err() {
            return false;
        }
        self.take_back(taken(at, bytes)).is_ok()
    }
}

/// The number after the last word of an area's pages.
fn end_of(site: &dsa_area::AreaSite) -> u64 {
    site.first + PAGE_WORDS * u64::from(site.pages)
}

/// Whether a chunk of this length may lie at a place.
fn is_chunk(place: u64, bytes: u64, end: u64) -> bool {
    bytes.is_multiple_of(8) && bytes >= LEAST_BYTES && place.checked_add(bytes / 8).is_some_and(|last| last <= end)
}

/// The chunk at a place, which this process has.
fn taken(place: u64, bytes: u64) -> region_words::Chunk {
    region_words::Chunk {
        at: RelPtr::of(place),
        bytes,
        part: Part::of_seat(atomic_table::Badge::blank().into_seat()),
    }
}

/// Gives back the chunks of an area that ended processes had, through a handle that nobody has. None if there is none.
pub(crate) fn sweep(map: &Arc<Map>, entry: &Arc<Entry>) -> Option<u64> {
    Some(Area::take(map, entry).ok()?.sweep())
}

impl Drop for Area {
    fn drop(&mut self) {
        if self.handle.map.is_ours() {
            self.handle.give(FREE);
        }
    }
}

impl Chunk {
    /// How many words it has.
    #[must_use]
    pub fn words(&self) -> u64 {
        self.inner.bytes / 8
    }

    /// Its words, in place.
    #[must_use]
    pub fn as_words(&self) -> &[u64] {
        self.inner.as_words(&self.map.region)
    }

    /// The same, to be changed.
    #[must_use]
    pub fn as_words_mut(&mut self) -> &mut [u64] {
        self.inner.as_words_mut(&self.map.region)
    }

    /// Its bytes, in place: eight for each word.
    #[must_use]
    pub fn as_bytes(&self) -> &[u8] {
        self.inner.as_bytes(&self.map.region)
    }

    /// The same, to be changed.
    #[must_use]
    pub fn as_bytes_mut(&mut self) -> &mut [u8] {
        self.inner.as_bytes_mut(&self.map.region)
    }

    chunk_calls!();

    /// Posts the chunk: nobody has it until a process fetches it by the ticket.
    #[must_use]
    pub fn post(self) -> Ticket {
        let number = self.map.next_ticket();
        let place = self.inner.at.word();
        self.map.region.word(place).store(POSTED | number, SeqCst);
        Ticket {
            place,
            bytes: self.inner.bytes,
            number,
        }
    }
}
