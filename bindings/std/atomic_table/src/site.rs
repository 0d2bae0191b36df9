//! Words and slots in a mapping: where they lie, and how a table is made there and found again.

use crate::home::{Home, is_word};
use crate::mapping::{Mapping, Room};
use crate::place::{Ground, Place};
use crate::{Refused, Shared, Table, TableRule};
use rattle_std::alloc::Global;
use rattle_std::vec::Vec;
use std::cell::Cell;
use std::marker::PhantomData;
use std::ptr::NonNull;
use std::sync::Arc;
use std::sync::atomic::Ordering::SeqCst;

/// The alignment of a table's slots in words, and that of its words: a lock has a line of the cache.
const HOME_WORDS: u64 = 16;
const LINE_WORDS: u64 = 8;

/// How far apart the values of slots begin, in words.
const fn stride<S>() -> usize {
    if is_word::<S>() { 1 } else { size_of::<Home<S>>() / 8 }
}

/// Whether a value is the word 0.
fn is_zero<S>(value: &S) -> bool {
    // SAFETY: a value of one word; all that the crates above have are numbers.
    is_word::<S>() && 0 == unsafe { std::mem::transmute_copy::<S, u64>(value) }
}

/// Where a table lies in a mapping.
#[derive(Clone, Copy, Debug, PartialEq, Eq)]
pub struct Site {
    /// The number of its first word.
    pub words: u64,
    /// How many words it has.
    pub word_count: u64,
    /// The number of the word at which its first slot begins.
    pub slots: u64,
    /// How many slots it has.
    pub slot_count: u64,
}

impl Site {
    /// Where a table of words and of slots that are words lies if its first word has this number.
    pub const fn of_words(first: u64, count: u64) -> Site {
        Site {
            words: first,
            word_count: count,
            slots: (first + count).next_multiple_of(HOME_WORDS),
            slot_count: count,
        }
    }

    /// Whether a mapping of this number of words has all of a table there whose values are of type S.
    pub fn fits<S>(self, words: u64) -> bool {
        let ends = |first: u64, count: u64, each: u64| count.checked_mul(each).and_then(|all| first.checked_add(all));
        let fits = |end: Option<u64>| end.is_some_and(|end| end <= words);
        self.slots.is_multiple_of(HOME_WORDS)
            && fits(ends(self.words, self.word_count, 1))
            && fits(ends(self.slots, self.slot_count, stride::<S>() as u64))
    }
}

thread_local! {
    /// Where this thread makes tables, if not on the heap: a room that `placed_in` borrows.
    static ROOM: Cell<Option<NonNull<Room>>> = const { Cell::new(None) };
}

/// What `make` makes in this thread lies in this room.
pub fn placed_in<R>(room: &Room, make: impl FnOnce() -> R) -> R {
    struct Back(Option<NonNull<Room>>);
    impl Drop for Back {
        fn drop(&mut self) {
            ROOM.set(self.0);
        }
    }
    let _back = Back(ROOM.replace(Some(NonNull::from(room))));
    make()
}

/// The room of this thread, if it is inside of `placed_in`.
pub(crate) fn room_of_this_thread() -> Option<Room> {
    // SAFETY: the room is borrowed as long as the place names it.
    ROOM.get().map(|room| unsafe { room.as_ref() }.clone())
}

impl<S> Place<S> {
    /// New ones with these values in a room; refused if too little of it is left. The room's words are 0, so a word that is to be 0 is not
    /// stored, and a page of them takes no memory.
    pub(crate) fn in_room(room: &Room, words: &[u64], slots: Vec<S>) -> Result<Place<S>, Refused<S>> {
        let Some(site) = site_in(room, words.len(), slots.len() * stride::<S>(), slots.len()) else {
            return Err(Refused { slots });
        };
        let place: Place<S> = Place::at(room.mapping(), site);
        for (at, word) in words.iter().enumerate().filter(|(_, word)| **word != 0) {
            place.word(at).store(*word, SeqCst);
        }
        for (at, value) in slots.into_iter().enumerate().filter(|(_, value)| !is_zero(value)) {
            // SAFETY: the room was taken for this table, and nobody else knows of it yet.
            unsafe { place.slot(at).write(value) };
        }
        Ok(place)
    }

    /// What lies at a site. It panics if the mapping is too short.
    fn at(mapping: &Arc<Mapping>, site: Site) -> Place<S> {
        assert!(site.fits::<S>(mapping.words()), "a table in the mapping");
        let slot_bytes = 8 * site.slot_count * stride::<S>() as u64;
        Place {
            words: mapping.pointer(site.words, 8 * site.word_count),
            word_count: site.word_count as usize,
            slots: mapping.pointer(site.slots, slot_bytes),
            slot_count: site.slot_count as usize,
            ground: Ground::Mapping { _kept: Arc::clone(mapping), site },
            marker: PhantomData,
        }
    }

    /// Whether other processes may step on its words too.
    pub(crate) fn is_in_mapping(&self) -> bool {
        matches!(self.ground, Ground::Mapping { .. })
    }
}

/// Takes so many words, and so many for slots, of a room.
fn site_in(room: &Room, words: usize, slot_words: usize, slots: usize) -> Option<Site> {
    Some(Site {
        words: room.take(words as u64, LINE_WORDS)?,
        word_count: words as u64,
        slots: room.take(slot_words as u64, HOME_WORDS)?,
        slot_count: slots as u64,
    })
}

impl<S, V, K, P: TableRule<S, V, K>> Shared<S, V, K, P> {
    /// Where it lies in its mapping. It panics if it lies in none.
    pub fn site(&self) -> Site {
        match self.place.ground {
            Ground::Mapping { site, .. } => site,
            Ground::Own => panic!("a table in a mapping"),
        }
    }
}

impl<S, V, K, P: TableRule<S, V, K>> Table<S, V, K, P, Global> {
    /// The table at a site of a mapping. It panics if the mapping is too short.
    ///
    /// # Safety
    ///
    /// A table with these types was made there, by a program that lays them out alike; a value has no pointer; and the words
    /// and slots are reached only as tables at this site.
    pub unsafe fn attach(mapping: &Arc<Mapping>, site: Site) -> Self {
        Table::at(Place::at(mapping, site))
    }
}
