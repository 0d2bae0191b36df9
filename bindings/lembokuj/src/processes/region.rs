//! Regions: how one is laid out and opened, and how handles are taken of it.

use crate::processes::directory::{ADVICE_WORDS, Directory, ENTRY_WORDS, Entry, MOST_HANDLES, MOST_MESSAGE_BYTES, Object, TOC_MAGIC};
use crate::processes::map::{self, AttachError, HEAD_WORDS, MOST_WORDS, Map};
use crate::processes::sys::{self, Process};
use crate::processes::table::Numbers;
use crate::{HOST, errors};
use atomic_table::{Mapping, Room, placed_in};
use dsa_area::AreaPass;
use rattle_std::alloc::Global;
use shm_toc::{FrozenToc, Toc, TocAnswer};
use std::fmt;
use std::fs::File;
use std::os::fd::{AsFd, AsRawFd, BorrowedFd, RawFd};
use std::sync::Arc;
use std::sync::atomic::AtomicU64;
use std::sync::atomic::Ordering::SeqCst;

/// Why a region is not made, or an object not laid out in it. A builder goes on after a refusal, but the words that the
/// object had taken are lost to it.
#[derive(Clone, Copy, Debug, PartialEq, Eq)]
pub enum BuildError {
    /// The system refused the file or the mapping: no memory, or the name is taken or no plain name.
    System,
    /// Fewer than 64 words, or 2^26 or more; no words to keep.
    Words,
    /// A ring's words are no power of two from 1 to 2^20.
    RingSize,
    /// The greatest message would have more than 2^26 bytes.
    MessageSize,
    /// No pages, or more than 65,536.
    Pages,
    /// No callers, or more than 4,096; of a barrier more than 63.
    Callers,
    /// The region has too few words left.
    Full,
    /// The area has too few pages for an empty table: one of 16 has enough.
    NoSpace,
    /// The key is there already.
    KeyThere,
}

errors!(BuildError {
    System => "the system refused",
    Words => "the number of words is out of range",
    RingSize => "a ring's words are a power of two up to 2^20",
    MessageSize => "the greatest message is too long",
    Pages => "the number of pages is out of range",
    Callers => "the number of callers is out of range",
    Full => "the region has too few words left",
    NoSpace => "the area has too few pages",
    KeyThere => "the key is there already",
});

/// Why a handle is not given.
#[derive(Clone, Copy, Debug, PartialEq, Eq)]
pub enum TakeError {
    /// No object of this kind has the key.
    NoKey,
    /// All of its handles are with processes, this one or others, or were used up: the end of a queue and a place at a
    /// barrier are taken once.
    Taken,
    /// There is no memory for the receiver's buffer.
    Memory,
}

errors!(TakeError {
    NoKey => "no object of this kind has the key",
    Taken => "all handles are taken",
    Memory => "out of memory",
});

/// Chunks of the directory's table have a multiple of this number of bytes.
const CHUNK_ALIGN: u64 = 32;
const MOST_PAGES: u32 = 1 << 16;
const LEAST_WORDS: u64 = 64;

/// A claim of a handle that nobody has.
pub(crate) const FREE: u64 = 0;
/// A claim of a handle that was given up for good.
pub(crate) const SPENT: u64 = u64::MAX;
/// A claim of a handle that is lost with its process.
pub(crate) const LOST: u64 = u64::MAX - 1;
/// The mark of a claim whose process has ended, while the one that it names detaches it.
pub(crate) const DETACHING: u64 = 1 << sys::PROCESS_BITS;

/// A region that is being laid out by the process that made it. If it is dropped, the region never opens.
pub struct Builder {
    mapping: Arc<Mapping>,
    region: region_words::Region,
    file: File,
    toc: Toc,
    room: Room,
    directory: Directory,
}

/// A region that is open, as this process has it. Clones are the same region.
#[derive(Clone)]
pub struct Region {
    pub(crate) map: Arc<Map>,
}

impl fmt::Debug for Builder {
    fn fmt(&self, f: &mut fmt::Formatter<'_>) -> fmt::Result {
        f.debug_struct("Builder").field("objects", &self.directory.entries.len()).finish_non_exhaustive()
    }
}

impl fmt::Debug for Region {
    fn fmt(&self, f: &mut fmt::Formatter<'_>) -> fmt::Result {
        f.debug_struct("Region").field("objects", &self.map.directory.entries.len()).finish_non_exhaustive()
    }
}

impl Region {
    /// Begins a region of this many words of 8 bytes, from 64 to fewer than 2^26, in a file without a name, which programs that
    /// this process starts inherit under the number of [`Region::fd`]. What nobody stores to takes no memory. A table or an area takes
    /// about 521 of the words for each page and 110 more, a queue its ring and about 30; [`Builder::free_bytes`] says what is left.
    ///
    /// # Errors
    ///
    /// [`BuildError::Words`], [`BuildError::System`].
    pub fn create(words: u64) -> Result<Builder, BuildError> {
        Builder::new(words, |bytes| sys::nameless_file(c"lembokuj", bytes))
    }

    /// The same under a name in `/dev/shm`, as `shm_open` has them, without the slash. Nobody may have the name; it stays until
    /// [`Region::unlink`].
    ///
    /// # Errors
    ///
    /// [`BuildError::Words`], [`BuildError::System`].
    pub fn create_named(name: &str, words: u64) -> Result<Builder, BuildError> {
        Builder::new(words, |bytes| sys::new_named_file(name, bytes))
    }

    /// Takes the name away. Who has the region keeps it; the memory goes with the last of them.
    ///
    /// # Errors
    ///
    /// What the system says.
    pub fn unlink(name: &str) -> std::io::Result<()> {
        sys::remove_name(name)
    }

    /// The region in a file. It duplicates the descriptor. The cost grows with the number of objects.
    ///
    /// # Errors
    ///
    /// [`AttachError`] has the causes.
    pub fn attach(file: impl AsFd) -> Result<Region, AttachError> {
        let fd = file.as_fd().try_clone_to_owned().map_err(|_| AttachError::System)?;
        Ok(Region {
            map: Arc::new(Map::attach(File::from(fd))?),
        })
    }

    /// The region under a name.
    ///
    /// # Errors
    ///
    /// [`AttachError`] has the causes.
    pub fn attach_named(name: &str) -> Result<Region, AttachError> {
        let file = sys::named_file(name).map_err(|_| AttachError::System)?;
        Ok(Region {
            map: Arc::new(Map::attach(file)?),
        })
    }

    /// The descriptor of the file, which lives as long as this region. Another program gets the file by this number, if this
    /// process made the region without a name and started it, over a socket, or by `/proc/PID/fd`.
    #[must_use]
    pub fn fd(&self) -> RawFd {
        self.map.file.as_raw_fd()
    }

    /// Where the mapping begins in this process, for the curious: other processes have it at another address.
    #[must_use]
    pub fn address(&self) -> usize {
        self.map.mapping.address()
    }

    /// A word of the words under a key, from 0; None past their end.
    ///
    /// # Errors
    ///
    /// [`TakeError::NoKey`].
    pub fn load(&self, key: u64, at: u64) -> Result<Option<u64>, TakeError> {
        match self.map.directory.find(key).map(|entry| &entry.object) {
            Some(Object::Words { first, count }) => Ok((at < *count).then(|| self.map.region.word(first + at).load(SeqCst))),
            _ => Err(TakeError::NoKey),
        }
    }
}

impl AsFd for Region {
    fn as_fd(&self) -> BorrowedFd<'_> {
        self.map.file.as_fd()
    }
}

fn refused(why: TocAnswer) -> BuildError {
    match why {
        TocAnswer::TocFull { .. } => BuildError::Full,
        TocAnswer::KeyThere { .. } => BuildError::KeyThere,
    }
}

/// An area that was laid out, with its passes.
type MadeArea = (dsa_area::Area, Vec<AreaPass>);

impl Builder {
    fn new(words: u64, file: impl FnOnce(u64) -> std::io::Result<File>) -> Result<Builder, BuildError> {
        if !(LEAST_WORDS..MOST_WORDS).contains(&words) {
            return Err(BuildError::Words);
        }
        let all = map::file_words(words);
        let file = file(8 * all).map_err(|_| BuildError::System)?;
        let mapping = Mapping::of_file(&file, all).map_err(|_| BuildError::System)?;
        map::begin(&mapping, words);
        // The region's words come first, so that they lie just after the head, and then its slots.
        let first = Room::new(&mapping, HEAD_WORDS, map::region_end(words));
        let made = placed_in(&first, || region_words::Region::new(Global, words as usize));
        let (region, part) = made.map_err(|_| BuildError::Full)?;
        let toc = Toc::create(&region, part, words, TOC_MAGIC);
        let room = Room::new(&mapping, map::region_end(words), all);
        Ok(Builder {
            mapping,
            region,
            file,
            toc,
            room,
            directory: Directory::default(),
        })
    }

    /// The bytes that are left for objects.
    #[must_use]
    pub fn free_bytes(&self) -> u64 {
        self.toc.free_bytes()
    }

    /// Writes an object into the directory, with its handles.
    fn enter(&mut self, key: u64, handles: u32, object: Object) -> Result<(), BuildError> {
        let count = u64::from(handles);
        let claims = self.room.take(count, ADVICE_WORDS).ok_or(BuildError::Full)?;
        let advice = self.room.take(ADVICE_WORDS * count.max(1), ADVICE_WORDS).ok_or(BuildError::Full)?;
        let entry = Entry {
            key,
            handles,
            claims,
            advice,
            object,
        };
        let mut chunk = self.toc.allocate(&self.region, 8 * ENTRY_WORDS).map_err(refused)?;
        for (at, word) in entry.words().into_iter().enumerate() {
            chunk.store(&self.region, at as u64, word);
        }
        self.toc.insert(&self.region, key, chunk.at).map_err(refused)?;
        self.toc.keep(&self.region, chunk);
        self.directory.entries.push(Arc::new(entry));
        Ok(())
    }

    /// Refuses a key that is there, before anything is laid out for it.
    fn is_new(&self, key: u64) -> Result<(), BuildError> {
        if self.directory.find(key).is_some() {
            return Err(BuildError::KeyThere);
        }
        Ok(())
    }

    /// A queue with one sender and one receiver: a ring of `ring_words` words, a power of two up to 2^20, and messages of at most
    /// `max_bytes` bytes, 2^26 at most.
    ///
    /// # Errors
    ///
    /// [`BuildError`] has the causes.
    pub fn queue(&mut self, key: u64, ring_words: u64, max_bytes: u32) -> Result<(), BuildError> {
        self.is_new(key)?;
        if !mq_ring::is_ring_size(ring_words) {
            return Err(BuildError::RingSize);
        }
        if u64::from(max_bytes) > MOST_MESSAGE_BYTES {
            return Err(BuildError::MessageSize);
        }
        let chunk = self.toc.allocate(&self.region, 8 * (ring_words + 3)).map_err(refused)?;
        let base = chunk.at.word();
        let _ends = mq_ring::Ring::create(&self.region, chunk, ring_words, 0, max_bytes);
        let object = Object::Queue {
            base,
            ring_words,
            max_bytes,
        };
        self.enter(key, 2, object)
    }

    fn new_area(&mut self, pages: u32, callers: u32) -> Result<MadeArea, BuildError> {
        if !(1..=MOST_PAGES).contains(&pages) {
            return Err(BuildError::Pages);
        }
        if !(1..=MOST_HANDLES).contains(&u64::from(callers)) {
            return Err(BuildError::Callers);
        }
        let chunk = self.toc.allocate(&self.region, 8 * dsa_area::area_words(pages)).map_err(refused)?;
        let made = placed_in(&self.room, || dsa_area::Area::new(Global, &self.region, chunk, pages, callers));
        let (area, passes) = made.map_err(|_| BuildError::Full)?;
        Ok((area, passes.into_iter().collect()))
    }

    /// An area of 1 to 65,536 pages, of 4,096 bytes each, for up to 4,096 callers.
    ///
    /// # Errors
    ///
    /// [`BuildError`] has the causes.
    pub fn area(&mut self, key: u64, pages: u32, callers: u32) -> Result<(), BuildError> {
        self.is_new(key)?;
        let (area, _passes) = self.new_area(pages, callers)?;
        self.enter(key, callers, Object::Area(area.site()))
    }

    /// A table of numbers under numbers, in pages that nothing else has, for up to 4,096 callers.
    ///
    /// # Errors
    ///
    /// [`BuildError`] has the causes.
    pub fn table(&mut self, key: u64, pages: u32, callers: u32) -> Result<(), BuildError> {
        self.is_new(key)?;
        let (area, mut passes) = self.new_area(pages, callers)?;
        let region = &self.region;
        let made = placed_in(&self.room, || {
            dshash_parts::Dshash::<Numbers>::new(&HOST, Global, region, &area, &mut passes[0], 1, callers)
        });
        let (table, _passes) = made.map_err(|why| match why {
            dshash_parts::DsNew::NoSpace { .. } => BuildError::NoSpace,
            dshash_parts::DsNew::Memory => BuildError::Full,
        })?;
        self.enter(key, callers, Object::Table(area.site(), table.site()))
    }

    /// A barrier of up to 63 callers, who all take part from the start.
    ///
    /// # Errors
    ///
    /// [`BuildError`] has the causes.
    pub fn barrier(&mut self, key: u64, callers: u32) -> Result<(), BuildError> {
        self.is_new(key)?;
        if !(1..=par_barrier_mapped::Barrier::MOST_CALLERS).contains(&callers) {
            return Err(BuildError::Callers);
        }
        let made = placed_in(&self.room, || par_barrier_mapped::Barrier::new(Global, callers));
        let (barrier, mut passes) = made.map_err(|_| BuildError::Full)?;
        barrier.attach_all(&HOST, passes.as_mut_slice());
        self.enter(key, callers, Object::Barrier(barrier.site()))
    }

    /// Words that everybody reads and nobody changes.
    ///
    /// # Errors
    ///
    /// [`BuildError`] has the causes.
    pub fn words(&mut self, key: u64, words: &[u64]) -> Result<(), BuildError> {
        self.is_new(key)?;
        if words.is_empty() {
            return Err(BuildError::Words);
        }
        let count = words.len() as u64;
        let mut chunk = self.toc.allocate(&self.region, 8 * count).map_err(refused)?;
        for (at, word) in (0..).zip(words) {
            chunk.store(&self.region, at, *word);
        }
        let first = chunk.at.word();
        self.toc.keep(&self.region, chunk);
        self.enter(key, 0, Object::Words { first, count })
    }

    /// Opens the region: the directory is frozen, and others may attach.
    #[must_use]
    pub fn open(mut self) -> Region {
        // What nothing was given of is nobody's, so that freezing stores nothing there, and it takes no memory.
        let rest = self.toc.free_bytes() / CHUNK_ALIGN * CHUNK_ALIGN;
        let _nobodys = self.toc.allocate(&self.region, rest);
        let _frozen: FrozenToc = self.toc.freeze(&self.region);
        let map = Map {
            mapping: self.mapping,
            region: self.region,
            directory: self.directory,
            file: self.file,
            me: Process::current(),
        };
        map.open();
        Region { map: Arc::new(map) }
    }
}

/// A handle that this process has: which object, and the number of the handle.
pub(crate) struct Handle {
    pub(crate) map: Arc<Map>,
    pub(crate) entry: Arc<Entry>,
    pub(crate) number: u32,
}

impl Handle {
    /// The handle of this number, if nobody has it.
    pub(crate) fn take(map: &Arc<Map>, entry: &Arc<Entry>, number: u32) -> Result<Handle, TakeError> {
        let claim = claim_of(map, entry, number);
        match claim.compare_exchange(FREE, map.me.number(), SeqCst, SeqCst) {
            Ok(_) => Ok(Handle {
                map: Arc::clone(map),
                entry: Arc::clone(entry),
                number,
            }),
            Err(_) => Err(TakeError::Taken),
        }
    }

    /// The first handle that nobody has.
    pub(crate) fn take_any(map: &Arc<Map>, entry: &Arc<Entry>) -> Result<Handle, TakeError> {
        let first = (0..entry.handles).find_map(|number| Handle::take(map, entry, number).ok());
        first.ok_or(TakeError::Taken)
    }

    /// Who has the handle of a number.
    pub(crate) fn claim(&self, number: u32) -> &AtomicU64 {
        claim_of(&self.map, &self.entry, number)
    }

    /// The word of advice of the handle of a number.
    pub(crate) fn advice(&self, number: u32) -> &AtomicU64 {
        self.map.mapping.word(self.entry.advice + ADVICE_WORDS * u64::from(number))
    }

    /// Whether the pass of a number may still give back a lock that it has.
    pub(crate) fn lives(&self, number: u32) -> bool {
        lives(&self.map, &self.entry, number)
    }

    /// Gives the handle back: others may take it, or nobody any more.
    pub(crate) fn give(&self, claim: u64) {
        let _lost = self.claim(self.number).compare_exchange(self.map.me.number(), claim, SeqCst, SeqCst);
    }
}

/// The claim of an object's handle.
pub(crate) fn claim_of<'a>(map: &'a Map, entry: &Entry, number: u32) -> &'a AtomicU64 {
    map.mapping.word(entry.claims + u64::from(number))
}

/// Whether the process that has a handle may still make a step. It asks the system.
pub(crate) fn lives(map: &Map, entry: &Entry, number: u32) -> bool {
    if map.is_damaged() || number >= entry.handles {
        return false;
    }
    match claim_of(map, entry, number).load(SeqCst) {
        LOST => false,
        FREE | SPENT => true,
        claim => !has_ended(map, claim),
    }
}

/// Whether the process that a claim names has ended.
pub(crate) fn has_ended(map: &Map, claim: u64) -> bool {
    let process = Process::of(claim & !DETACHING);
    !matches!(claim, FREE | SPENT | LOST) && process != map.me && process.has_ended()
}
