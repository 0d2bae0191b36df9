//! The mapping of a region, as a process has it: its head, and what is looked at before it is used.
//!
//! ```text
//! word 0   512                                                                          end
//! | head    | W words of the region | its W slots | locks with their values, claims, advice |
//! ```
//!
//! Each number of the region has a word and a slot. A word that one process owns lies in its slot, which is plain memory; the word is
//! for what several load: the counts and flag of a ring, the directory, and of a chunk of an area who has it (`area`).
//!
//! Words of the head, with who stores them:
//!
//! | word | what | who |
//! |---|---|---|
//! | 0 | the magic number `LKREGION` | the maker, before it opens |
//! | 1 | the version of this layout | the maker |
//! | 2 | a sum over the sizes of the values that locks guard, and the compiler that laid them out | the maker |
//! | 3 | the words of the file | the maker |
//! | 4 | the words of the region | the maker |
//! | 5 | the number of the system (its start, and its space of process ids) | the maker |
//! | 6 | a sum over words 1 to 5 and the directory | the maker |
//! | 7 | 0 while it is made, 1 once it is open, 2 once a process found it damaged | the maker; a process that finds it |
//! | 8 | how many tickets were written | a process that posts a chunk |

use crate::link::Damage;
use crate::processes::directory::Directory;
use crate::processes::sys::{self, Process, Sum};
use crate::processes::table::Numbers;
use atomic_table::{Mapping, Site};
use std::fs::File;
use std::hash::Hasher;
use std::panic::{AssertUnwindSafe, catch_unwind};
use std::sync::Arc;
use std::sync::atomic::AtomicU64;
use std::sync::atomic::Ordering::SeqCst;

/// The words before those of the region: a page of the system's.
pub(crate) const HEAD_WORDS: u64 = 512;

/// No word of a region is at a place above this one.
pub(crate) const MOST_WORDS: u64 = 1 << 26;

/// The words after those of the region, for locks, values, claims and advice. Those that nobody uses take no memory.
pub(crate) const SIDE_WORDS: u64 = 1 << 20;

const MAGIC: u64 = u64::from_le_bytes(*b"LKREGION");
const VERSION: u64 = 2;

/// The words of the head.
#[derive(Clone, Copy)]
enum Head {
    Magic,
    Version,
    Layout,
    FileWords,
    RegionWords,
    System,
    Sum,
    State,
    Tickets,
}

const BEING_MADE: u64 = 0;
const OPEN: u64 = 1;
const DAMAGED: u64 = 2;

/// Why a file is not attached to.
#[derive(Clone, Copy, Debug, PartialEq, Eq)]
pub enum AttachError {
    /// The system refused: no file under the name, or no leave to read and write it, or no memory.
    System,
    /// The file is no region: it does not begin with the magic number.
    NotRegion,
    /// Its head is that of another version of this library.
    Version,
    /// The program that made it lays values out in another way: another build of this library.
    Layout,
    /// The file is shorter or longer than its head says.
    Size,
    /// Sizes or places that its head or directory names do not fit together, or are not those that were written.
    Damaged,
    /// It is not open yet, or its maker ended before it was.
    NotOpen,
    /// It was made before the system was started, or in another space of process ids.
    OtherSystem,
}

crate::errors!(AttachError {
    System => "the system refused",
    NotRegion => "the file is no region",
    Version => "the region is of another version",
    Layout => "the region is of another build of the library",
    Size => "the file is not as long as its head says",
    Damaged => "the region is damaged",
    NotOpen => "the region is not open yet",
    OtherSystem => "the region is of another system",
});

/// A region as this process has it.
pub(crate) struct Map {
    pub(crate) mapping: Arc<Mapping>,
    pub(crate) region: region_words::Region,
    pub(crate) directory: Directory,
    pub(crate) file: File,
    /// This process.
    pub(crate) me: Process,
}

/// What the values that locks guard look like in memory, and who laid them out.
fn layout() -> u64 {
    let [pages, pool] = dsa_area::Area::slot_layouts();
    let mut sum = Sum::default();
    for [bytes, align] in [
        pages,
        pool,
        dshash_parts::Dshash::<Numbers>::slot_layout(),
        par_barrier_mapped::Barrier::slot_layout(),
    ] {
        sum.write_u64(bytes);
        sum.write_u64(align);
    }
    sum.write(env!("LEMBOKUJ_COMPILER").as_bytes());
    sum.write(env!("CARGO_PKG_VERSION").as_bytes());
    sum.finish()
}

fn head(mapping: &Mapping, word: Head) -> &AtomicU64 {
    mapping.word(word as u64)
}

/// The place of a region of this size: its words, and its slots.
pub(crate) fn region_site(words: u64) -> Site {
    Site::of_words(HEAD_WORDS, words)
}

/// The number of the first word after those of a region of this size, and its slots.
pub(crate) fn region_end(words: u64) -> u64 {
    let site = region_site(words);
    site.slots + site.slot_count
}

/// The words of the file of a region of this size: whole pages.
pub(crate) fn file_words(words: u64) -> u64 {
    (region_end(words) + SIDE_WORDS).next_multiple_of(HEAD_WORDS)
}

/// The sum of what the maker wrote and nobody changes.
fn sum_of(mapping: &Mapping, directory: &Directory) -> u64 {
    let mut sum = Sum::default();
    for word in [Head::Version, Head::Layout, Head::FileWords, Head::RegionWords, Head::System] {
        sum.write_u64(head(mapping, word).load(SeqCst));
    }
    directory.add_to(&mut sum);
    sum.finish()
}

/// Writes the head of a region that is being made, all but its sum and its state.
pub(crate) fn begin(mapping: &Mapping, words: u64) {
    for (word, value) in [
        (Head::Version, VERSION),
        (Head::Layout, layout()),
        (Head::FileWords, mapping.words()),
        (Head::RegionWords, words),
        (Head::System, sys::system_number()),
        (Head::State, BEING_MADE),
        (Head::Magic, MAGIC),
    ] {
        head(mapping, word).store(value, SeqCst);
    }
}

/// The place of a word of a region in its file, in bytes.
pub(crate) fn place_of(at: u64) -> u64 {
    8 * (HEAD_WORDS + at)
}

impl Map {
    /// Opens a region: from now on others may attach.
    pub(crate) fn open(&self) {
        let sum = sum_of(&self.mapping, &self.directory);
        head(&self.mapping, Head::Sum).store(sum, SeqCst);
        head(&self.mapping, Head::State).store(OPEN, SeqCst);
    }

    /// The region of a file, if all that its maker wrote is as it was.
    pub(crate) fn attach(file: File) -> Result<Map, AttachError> {
        let bytes = file.metadata().map_err(|_| AttachError::System)?.len();
        if bytes < 8 * HEAD_WORDS {
            return Err(AttachError::NotRegion);
        }
        let mapping = Mapping::of_file(&file, bytes / 8).map_err(|_| AttachError::System)?;
        let word = |word| head(&mapping, word).load(SeqCst);
        if word(Head::Magic) != MAGIC {
            return Err(AttachError::NotRegion);
        }
        if word(Head::Version) != VERSION {
            return Err(AttachError::Version);
        }
        if word(Head::Layout) != layout() {
            return Err(AttachError::Layout);
        }
        let words = word(Head::RegionWords);
        if word(Head::FileWords).checked_mul(8) != Some(bytes) {
            return Err(AttachError::Size);
        }
        if words >= MOST_WORDS || file_words(words) != word(Head::FileWords) {
            return Err(AttachError::Damaged);
        }
        match word(Head::State) {
            BEING_MADE => return Err(AttachError::NotOpen),
            OPEN => {}
            _ => return Err(AttachError::Damaged),
        }
        if word(Head::System) != sys::system_number() {
            return Err(AttachError::OtherSystem);
        }
        // SAFETY: the words are there, as was looked at, and are reached only as a region's.
        let region = unsafe { region_words::Region::attach(&mapping, region_site(words)) };
        let directory = Directory::read(&region, words, mapping.words()).ok_or(AttachError::Damaged)?;
        if sum_of(&mapping, &directory) != word(Head::Sum) {
            return Err(AttachError::Damaged);
        }
        let me = Process::current();
        Ok(Map {
            mapping,
            region,
            directory,
            file,
            me,
        })
    }

    /// Makes calls of the objects' code. That code has no checks but those that keep it in the mapping: if one
    /// of them finds something that can't be, the region is damaged for everybody.
    pub(crate) fn guard<R>(&self, calls: impl FnOnce() -> R) -> Result<R, Damage> {
        if self.is_damaged() {
            return Err(Damage);
        }
        catch_unwind(AssertUnwindSafe(calls)).map_err(|_| {
            head(&self.mapping, Head::State).store(DAMAGED, SeqCst);
            Damage
        })
    }

    /// Whether a process found it damaged.
    pub(crate) fn is_damaged(&self) -> bool {
        head(&self.mapping, Head::State).load(SeqCst) == DAMAGED
    }

    /// A number that no other ticket of the region has.
    pub(crate) fn next_ticket(&self) -> u64 {
        head(&self.mapping, Head::Tickets).fetch_add(1, SeqCst) + 1
    }

    /// Whether this is the process that attached, and no child of it by fork.
    pub(crate) fn is_ours(&self) -> bool {
        self.me.is(std::process::id())
    }
}
