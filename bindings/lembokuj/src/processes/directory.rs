//! The directory: which objects a region has, under which keys, at which places.
//!
//! It is a table of contents in the region's first words, frozen before others attach. A process reads all of it once, as it
//! attaches, and goes by what it read: what a file says is looked at before it is believed.
//!
//! An object's entry is a chunk of `ENTRY_WORDS` words: its kind, how many handles it has, the number of its first claim, that
//! of its first word of advice, and then the numbers of its kind.

use crate::processes::map::region_end;
use crate::processes::sys::Sum;
use crate::processes::table::Numbers;
use atomic_table::Site;
use dsa_area::AreaSite;
use dshash_parts::{Dshash, TableSite};
use region_words::Region;
use rel_pointer::RelPtr;
use shm_toc::FrozenToc;
use std::hash::Hasher;
use std::sync::Arc;

/// The magic number of the directory's table of contents.
pub(crate) const TOC_MAGIC: u64 = 0x4c_4b54_4f43;

/// The words of an entry.
pub(crate) const ENTRY_WORDS: u64 = 24;

/// The most handles of an object.
pub(crate) const MOST_HANDLES: u64 = 4096;

/// The words between two words of advice: a line of the cache.
pub(crate) const ADVICE_WORDS: u64 = 8;

/// The greatest message of a queue, in bytes.
pub(crate) const MOST_MESSAGE_BYTES: u64 = 1 << 26;

/// The words of a table of contents before its entries, and the word that counts these.
const TOC_HEAD: u64 = 4;
const TOC_COUNT: u64 = 3;

/// Where an object lies, by its kind. Numbers of words are the region's, those of sites the file's.
#[derive(Clone, Debug, PartialEq, Eq)]
pub(crate) enum Object {
    Queue { base: u64, ring_words: u64, max_bytes: u32 },
    Area(AreaSite),
    Table(AreaSite, TableSite),
    Barrier(Site),
    Words { first: u64, count: u64 },
}

/// An object of the directory.
#[derive(Clone, Debug, PartialEq, Eq)]
pub(crate) struct Entry {
    pub(crate) key: u64,
    pub(crate) handles: u32,
    /// The file's number of the word that says who has handle 0. The others' follow it.
    pub(crate) claims: u64,
    /// The same of the word of advice.
    pub(crate) advice: u64,
    pub(crate) object: Object,
}

/// All objects of a region.
#[derive(Clone, Debug, Default)]
pub(crate) struct Directory {
    pub(crate) entries: Vec<Arc<Entry>>,
}

const QUEUE: u64 = 1;
const AREA: u64 = 2;
const TABLE: u64 = 3;
const BARRIER: u64 = 4;
const WORDS: u64 = 5;

fn of_site(site: &Site) -> [u64; 4] {
    [site.words, site.word_count, site.slots, site.slot_count]
}

fn site_of(numbers: &[u64]) -> Site {
    Site {
        words: numbers[0],
        word_count: numbers[1],
        slots: numbers[2],
        slot_count: numbers[3],
    }
}

fn of_area(site: &AreaSite) -> Vec<u64> {
    let mut numbers = vec![site.first, u64::from(site.pages)];
    numbers.extend(of_site(&site.page_shelf));
    numbers.extend(of_site(&site.pool_shelf));
    numbers
}

fn area_of(numbers: &[u64]) -> Option<AreaSite> {
    Some(AreaSite {
        first: numbers[0],
        pages: u32::try_from(numbers[1]).ok()?,
        page_shelf: site_of(&numbers[2..6]),
        pool_shelf: site_of(&numbers[6..10]),
    })
}

impl Object {
    /// The number of its kind, and the numbers that say its place.
    fn numbers(&self) -> (u64, Vec<u64>) {
        match self {
            Object::Queue {
                base,
                ring_words,
                max_bytes,
            } => (QUEUE, vec![*base, *ring_words, u64::from(*max_bytes)]),
            Object::Area(site) => (AREA, of_area(site)),
            Object::Table(area, table) => {
                let mut numbers = of_area(area);
                numbers.extend([u64::from(table.key_words), table.item_bytes]);
                numbers.extend(of_site(&table.shelf));
                (TABLE, numbers)
            }
            Object::Barrier(site) => (BARRIER, of_site(site).to_vec()),
            Object::Words { first, count } => (WORDS, vec![*first, *count]),
        }
    }

    /// Of such numbers.
    fn of(kind: u64, numbers: &[u64]) -> Option<Object> {
        Some(match kind {
            QUEUE => Object::Queue {
                base: numbers[0],
                ring_words: numbers[1],
                max_bytes: u32::try_from(numbers[2]).ok()?,
            },
            AREA => Object::Area(area_of(numbers)?),
            TABLE => Object::Table(
                area_of(numbers)?,
                TableSite {
                    key_words: u32::try_from(numbers[10]).ok()?,
                    item_bytes: numbers[11],
                    shelf: site_of(&numbers[12..16]),
                },
            ),
            BARRIER => Object::Barrier(site_of(numbers)),
            WORDS => Object::Words {
                first: numbers[0],
                count: numbers[1],
            },
            _ => return None,
        })
    }

    /// Whether a region of `words` words in a file of `file` words has all of it there.
    fn fits(&self, words: u64, file: u64) -> bool {
        let within = |first: u64, count: u64| first.checked_add(count).is_some_and(|end| end <= words);
        let area_fits = |site: &AreaSite| {
            (1..=1 << 17).contains(&site.pages) && within(site.first, 512 * u64::from(site.pages)) && dsa_area::Area::fits(site, file)
        };
        match self {
            Object::Queue {
                base,
                ring_words,
                max_bytes,
            } => mq_ring::is_ring_size(*ring_words) && u64::from(*max_bytes) <= MOST_MESSAGE_BYTES && within(*base, ring_words + 3),
            Object::Area(site) => area_fits(site),
            Object::Table(area, table) => {
                let item = dshash_core::item_bytes(1, 1);
                area_fits(area) && table.key_words == 1 && table.item_bytes == item && Dshash::<Numbers>::fits(table, file)
            }
            Object::Barrier(site) => par_barrier_mapped::Barrier::fits(*site, file),
            Object::Words { first, count } => within(*first, *count),
        }
    }
}

impl Entry {
    /// Its words in the region.
    pub(crate) fn words(&self) -> Vec<u64> {
        let (kind, numbers) = self.object.numbers();
        let mut words = vec![kind, u64::from(self.handles), self.claims, self.advice];
        words.extend(numbers);
        words.resize(ENTRY_WORDS as usize, 0);
        words
    }

    /// Of such words, if a region of `region` words in a file of `file` words has all of it there.
    fn of(key: u64, words: &[u64], region: u64, file: u64) -> Option<Entry> {
        let [kind, handles, claims, advice] = *words.first_chunk()?;
        let object = Object::of(kind, &words[4..])?;
        let side = region_end(region);
        let beside = |first: u64, count: u64| first >= side && first.checked_add(count).is_some_and(|end| end <= file);
        let fits = handles <= MOST_HANDLES && beside(claims, handles) && beside(advice, ADVICE_WORDS * handles.max(1));
        if !fits || !object.fits(region, file) {
            return None;
        }
        let entry = Entry {
            key,
            handles: handles as u32,
            claims,
            advice,
            object,
        };
        // The words that its kind does not use are 0.
        (entry.words() == words).then_some(entry)
    }
}

impl Directory {
    /// The directory in a region of `words` words, in a file of `file` words. None if any of it can't be so.
    pub(crate) fn read(region: &Region, words: u64, file: u64) -> Option<Directory> {
        if words < TOC_HEAD {
            return None;
        }
        let mut toc = FrozenToc::taken(region, TOC_MAGIC)?;
        let mut word = |at: u64| (at < words).then(|| toc.load(region, RelPtr::of(at)));
        let count = word(TOC_COUNT)?;
        if count > words / ENTRY_WORDS {
            return None;
        }
        let mut entries = Vec::new();
        for at in 0..count {
            let key = word(TOC_HEAD + 2 * at)?;
            let place = word(TOC_HEAD + 2 * at + 1)?;
            let end = place.checked_add(ENTRY_WORDS)?;
            let numbers = (place..end).map(&mut word).collect::<Option<Vec<u64>>>()?;
            entries.push(Arc::new(Entry::of(key, &numbers, words, file)?));
        }
        Some(Directory { entries })
    }

    /// The object under a key.
    pub(crate) fn find(&self, key: u64) -> Option<&Arc<Entry>> {
        self.entries.iter().find(|entry| entry.key == key)
    }

    /// Adds all of it to a sum.
    pub(crate) fn add_to(&self, sum: &mut Sum) {
        for entry in &self.entries {
            sum.write_u64(entry.key);
            entry.words().into_iter().for_each(|word| sum.write_u64(word));
        }
    }
}
