//! Stands for the toolchain's `atomic_table`: words that threads change in single steps, slots that hold a value each, and
//! seats, with which a thread steps.
//!
//! What the proofs take from it, and this code has to meet: each step on a word is one sequentially consistent step of an
//! atomic `u64`; a slot is read and written by plain reads and writes, through the seat that holds it; a seat, a badge and
//! a view have no bytes. Who may take which step, and that no slot is held by two seats, is the rule that each crate above
//! proves; in Rust the rules are empty traits. So a caller that follows no such rule can reach one slot from two threads:
//! this crate and those of the runtime over it are only for the crate `lembokuj`, and are not published.
//!
//! Words and slots lie on the heap, or, on Linux, in a file that several processes map, each at another address: where, is said when
//! a table is made (`placed_in`), and all steps are the same code. In a mapping a process is to the others as a thread: what one stores
//! the others load, and nothing in it is an address. A value in a slot may then have no pointer, which no type says: it is
//! the duty of the crates that make tables, and of `Table::attach`'s callers.
//!
//! The places of `unsafe` are `impl Sync for Shared`, `Seat::slot_mut` and the two calls for slots in a row; the memory of a table
//! (`place`); and, for a mapping, the first values of tables (`site`) and the calls of the system (`mapping`, `futex`).

#![expect(clippy::type_complexity, reason = "a marker names all that it stands for")]

#[cfg(all(target_os = "linux", any(target_arch = "x86_64", target_arch = "aarch64")))]
mod futex;
mod home;
mod lists;
#[cfg(all(target_os = "linux", any(target_arch = "x86_64", target_arch = "aarch64")))]
mod mapping;
mod place;
#[cfg(all(target_os = "linux", any(target_arch = "x86_64", target_arch = "aarch64")))]
mod site;
mod sleep;

#[cfg(all(target_os = "linux", any(target_arch = "x86_64", target_arch = "aarch64")))]
pub use futex::{sleep_on, wake};
#[cfg(all(target_os = "linux", any(target_arch = "x86_64", target_arch = "aarch64")))]
pub use mapping::{Mapping, Room};
#[cfg(all(target_os = "linux", any(target_arch = "x86_64", target_arch = "aarch64")))]
pub use site::{Site, placed_in};

use home::is_word;
use place::Place;
use rattle_std::alloc::{AllocError, Global};
use rattle_std::vec::Vec;
use std::marker::PhantomData;
use std::sync::atomic::AtomicU64;
use std::sync::atomic::Ordering::SeqCst;

/// The fact about words, values at home and views that each step keeps. Proved above, empty here.
pub trait TableRule<S, V, K> {}

/// What a step tells its caller. Proved above, empty here.
pub trait Play<S, V> {}

/// How a view is cut in two. Proved above, empty here.
pub trait Split<V> {}

/// How two views are made one. Proved above, empty here.
pub trait Join<V> {}

/// A thread's place at a table, with what it knows and the slots that it holds: nothing of which has bytes.
pub struct Seat<S, V> {
    marker: PhantomData<(S, fn() -> V)>,
}

impl<S, V> Seat<S, V> {
    const NEW: Seat<S, V> = Seat { marker: PhantomData };

    pub fn into_badge(self) -> Badge<V> {
        Badge::blank()
    }

    /// The value of a slot that this seat holds.
    #[inline]
    pub fn slot_mut<'a, K, P: TableRule<S, V, K>>(&'a mut self, table: &'a Shared<S, V, K, P>, slot: usize) -> &'a mut S {
        // SAFETY: the call's contract is that this seat holds the slot, and the crates above prove that no other seat holds it
        // then. What one holder wrote the next one sees, since between their turns at the slot there is always a step that
        // orders them:
        // - a value behind a lock is held between the compare-and-exchange that took its lock and the store that gives it
        //   back, both sequentially consistent;
        // - a word that one token owns is held by whoever has the token. A token is a value that is not `Copy`, so it comes to
        //   another thread only as Rust hands values over, or inside a value behind a lock;
        // - a cell of a ring is written by the sender before it stores the written count and read by the receiver after it
        //   loaded that count, and comes back in the same way by the read count, all of them sequentially consistent.
        // The loads by which an owner takes a slot out and gives it back order nothing: they are there for the proof.
        // The borrow of the seat ends before the seat can take another step.
        unsafe { &mut *table.place.slot(slot) }
    }

    /// The slot that was taken last goes behind the others: a matter of the proof alone.
    #[inline]
    pub fn turn(&mut self) {}

    /// The values of some slots in a row, all of which this seat holds. They are words, which lie side by side. The
    /// toolchain's table has no such call: it is for the words of a chunk as a slice.
    #[inline]
    pub fn slots<'a, K, P: TableRule<S, V, K>>(&'a self, table: &'a Shared<S, V, K, P>, first: usize, count: usize) -> &'a [S] {
        const { assert!(is_word::<S>(), "only words lie side by side") };
        // SAFETY: as in `slot_mut`, for each slot of the row: the seat's holder is the only one who reaches them, and lends
        // out nothing else of them while the seat is borrowed.
        unsafe { std::slice::from_raw_parts(table.place.row(first, count), count) }
    }

    /// The same, to be changed.
    #[inline]
    pub fn slots_mut<'a, K, P: TableRule<S, V, K>>(
        &'a mut self,
        table: &'a Shared<S, V, K, P>,
        first: usize,
        count: usize,
    ) -> &'a mut [S] {
        const { assert!(is_word::<S>(), "only words lie side by side") };
        // SAFETY: as above, and the seat is borrowed for this slice only.
        unsafe { std::slice::from_raw_parts_mut(table.place.row(first, count), count) }
    }
}

/// A seat that holds no slot, in a type that does not name what the slots hold.
pub struct Badge<V> {
    marker: PhantomData<fn() -> V>,
}

impl<V> Badge<V> {
    pub const fn blank() -> Badge<V> {
        Badge { marker: PhantomData }
    }

    pub fn into_seat<S>(self) -> Seat<S, V> {
        Seat::NEW
    }
}

/// The words and slots, as threads see them.
pub struct Shared<S, V, K, P: TableRule<S, V, K>> {
    place: Place<S>,
    marker: PhantomData<fn() -> (V, K, P)>,
}

// SAFETY: the words are atomic. A slot is reached only by `slot_mut` (`exchange` calls it), through the one seat that holds
// it, so threads hand its value to one another and never share it: that asks for `S: Send`.
unsafe impl<S: Send, V, K, P: TableRule<S, V, K>> Sync for Shared<S, V, K, P> {}

impl<S, V, K, P: TableRule<S, V, K>> Shared<S, V, K, P> {
    /// A word.
    #[inline]
    pub fn word(&self, at: usize) -> &AtomicU64 {
        self.place.word(at)
    }

    /// A load with no seat.
    #[inline]
    pub fn peek(&self, word: usize) -> u64 {
        self.word(word).load(SeqCst)
    }

    #[inline]
    pub fn load<M: Play<S, V>>(&self, _seat: &mut Seat<S, V>, word: usize) -> u64 {
        self.word(word).load(SeqCst)
    }

    #[inline]
    pub fn store<M: Play<S, V>>(&self, _seat: &mut Seat<S, V>, word: usize, new: u64) {
        self.word(word).store(new, SeqCst);
    }

    #[inline]
    pub fn swap<M: Play<S, V>>(&self, _seat: &mut Seat<S, V>, word: usize, new: u64) -> u64 {
        self.word(word).swap(new, SeqCst)
    }

    #[inline]
    pub fn fetch_add<M: Play<S, V>>(&self, _seat: &mut Seat<S, V>, word: usize, more: u64) -> u64 {
        self.word(word).fetch_add(more, SeqCst)
    }

    #[inline]
    pub fn fetch_sub<M: Play<S, V>>(&self, _seat: &mut Seat<S, V>, word: usize, less: u64) -> u64 {
        self.word(word).fetch_sub(less, SeqCst)
    }

    /// The word as it was, which has become `new` if it was `old`.
    #[inline]
    pub fn compare_exchange<M: Play<S, V>>(&self, _seat: &mut Seat<S, V>, word: usize, old: u64, new: u64) -> u64 {
        match self.word(word).compare_exchange(old, new, SeqCst, SeqCst) {
            Ok(found) | Err(found) => found,
        }
    }

    /// The value of a slot that the seat holds, which becomes `new`.
    #[inline]
    pub fn exchange(&self, seat: &mut Seat<S, V>, slot: usize, new: S) -> S {
        std::mem::replace(seat.slot_mut(self, slot), new)
    }

    /// A second seat. A view changes only at a step, so this and `join_seat` load word 0.
    pub fn split_seat<M: Split<V>>(&self, _seat: &mut Seat<S, V>) -> Seat<S, V> {
        self.peek(0);
        Seat::NEW
    }

    /// Ends the other seat.
    pub fn join_seat<M: Join<V>>(&self, _seat: &mut Seat<S, V>, _other: Seat<S, V>) {
        self.peek(0);
    }
}

/// Owns the words and slots. `A` is the allocator.
pub struct Table<S, V, K, P: TableRule<S, V, K>, A> {
    pub shared: Shared<S, V, K, P>,
    alloc: PhantomData<A>,
}

/// The values of a table for which there was no memory.
pub struct Refused<S> {
    pub slots: Vec<S>,
}

impl<S, V, K, P: TableRule<S, V, K>> Table<S, V, K, P, Global> {
    /// A table of these words and slots, with its first seat. `about` is for the proof alone.
    pub fn new(_alloc: Global, words: &[u64], slots: Vec<S>, about: &K) -> Result<(Self, Seat<S, V>), Refused<S>> {
        let _ = about;
        Ok((Table::at(Place::new(words, slots)?), Seat::NEW))
    }

    /// The table at a place.
    fn at(place: Place<S>) -> Self {
        Table {
            shared: Shared {
                place,
                marker: PhantomData,
            },
            alloc: PhantomData,
        }
    }

    /// A table of words alone.
    pub fn of_words(alloc: Global, words: &[u64], about: &K) -> Result<(Self, Seat<S, V>), AllocError> {
        Self::new(alloc, words, Vec::new(alloc), about).map_err(|_| AllocError)
    }

    /// Ends the table. The values come back, each in its slot.
    pub fn close_with(self, _seat: Seat<S, V>) -> Closed<S, Global> {
        Closed {
            slots: self.shared.place.into_values().map(Some).collect(),
            alloc: PhantomData,
        }
    }
}

/// The slots of a table that was ended. What is not taken is dropped with it.
pub struct Closed<S, A> {
    slots: Box<[Option<S>]>,
    alloc: PhantomData<A>,
}

impl<S, A> Closed<S, A> {
    /// The value of a slot, which is taken once.
    pub fn take(&mut self, slot: usize) -> S {
        self.slots[slot].take().expect("a slot is taken once")
    }

    /// Ends it.
    pub fn free(self) {}
}
