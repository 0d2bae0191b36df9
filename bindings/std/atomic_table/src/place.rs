//! The words and slots of a table, in memory of the table's or in a mapping that processes share. Whoever steps on them goes by
//! the same two pointers; the ground says whose the memory is.

use crate::Refused;
use crate::home::{Home, is_word};
#[cfg(all(target_os = "linux", any(target_arch = "x86_64", target_arch = "aarch64")))]
use crate::mapping::Mapping;
#[cfg(all(target_os = "linux", any(target_arch = "x86_64", target_arch = "aarch64")))]
use crate::site::{Site, room_of_this_thread};
use rattle_std::alloc::AllocError;
use rattle_std::vec::Vec;
use std::cell::UnsafeCell;
use std::marker::PhantomData;
use std::ptr::{NonNull, slice_from_raw_parts_mut};
#[cfg(all(target_os = "linux", any(target_arch = "x86_64", target_arch = "aarch64")))]
use std::sync::Arc;
use std::sync::atomic::AtomicU64;

/// The words and slots of a table.
pub(crate) struct Place<S> {
    pub(crate) words: NonNull<AtomicU64>,
    pub(crate) word_count: usize,
    /// The first slot: a value that is a word, or a `Home`.
    pub(crate) slots: NonNull<u64>,
    pub(crate) slot_count: usize,
    pub(crate) ground: Ground,
    pub(crate) marker: PhantomData<UnsafeCell<S>>,
}

/// Whose the memory is.
pub(crate) enum Ground {
    /// The place's: the words are a boxed list, and so are the slots.
    Own,
    /// The mapping's, which the place keeps.
    #[cfg(all(target_os = "linux", any(target_arch = "x86_64", target_arch = "aarch64")))]
    Mapping { _kept: Arc<Mapping>, site: Site },
}

// SAFETY: the words are atomic, and the memory is the place's or that of a mapping, which it keeps. A slot is reached only through
// a table (see `Shared`), whose threads hand its value to one another.
unsafe impl<S: Send> Send for Place<S> {}

impl<S> Place<S> {
    /// New ones with these values: in the room that `placed_in` names for this thread, and if it names none, on the heap.
    pub(crate) fn new(words: &[u64], slots: Vec<S>) -> Result<Place<S>, Refused<S>> {
        #[cfg(all(target_os = "linux", any(target_arch = "x86_64", target_arch = "aarch64")))]
        if let Some(room) = room_of_this_thread() {
            return Place::in_room(&room, words, slots);
        }
        Place::on_heap(words, slots)
    }

    fn on_heap(words: &[u64], slots: Vec<S>) -> Result<Place<S>, Refused<S>> {
        let Ok(words) = atomic(words) else {
            return Err(Refused { slots });
        };
        let slot_count = slots.len();
        let slots = if const { is_word::<S>() } {
            leaked(slots, UnsafeCell::new)?
        } else {
            leaked(slots, |value| Home { slot: UnsafeCell::new(value) })?
        };
        let word_count = words.len();
        Ok(Place {
            words: first_of(words),
            word_count,
            slots,
            slot_count,
            ground: Ground::Own,
            marker: PhantomData,
        })
    }

    /// A word.
    #[inline]
    pub(crate) fn word(&self, at: usize) -> &AtomicU64 {
        assert!(at < self.word_count, "a word of the table");
        // SAFETY: the word is there as long as the place is.
        unsafe { self.words.add(at).as_ref() }
    }

    /// Where the value of a slot lies.
    #[inline]
    pub(crate) fn slot(&self, at: usize) -> *mut S {
        assert!(at < self.slot_count, "a slot of the table");
        // SAFETY: the slot is there as long as the place is.
        unsafe {
            if const { is_word::<S>() } {
                self.slots.add(at).cast().as_ptr()
            } else {
                UnsafeCell::raw_get(&raw const (*self.slots.cast::<Home<S>>().add(at).as_ptr()).slot)
            }
        }
    }

    /// Where the values of some slots in a row lie, which are plain words.
    #[inline]
    pub(crate) fn row(&self, first: usize, count: usize) -> *mut S {
        assert!(first <= self.slot_count && count <= self.slot_count - first, "slots of the table");
        // SAFETY: the slots are there, or this is just past the last one if none is wanted.
        unsafe { self.slots.add(first).cast().as_ptr() }
    }

    /// The values, each in its place. Those in a mapping stay there, and there is none.
    pub(crate) fn into_values(mut self) -> impl Iterator<Item = S> {
        let (side_by_side, apart) = self.take_slots();
        let side_by_side = side_by_side.into_iter().map(UnsafeCell::into_inner);
        side_by_side.chain(apart.into_iter().map(|home| home.slot.into_inner()))
    }

    /// Takes the slots out of a place that owns them, in one of two lists; the other is empty.
    fn take_slots(&mut self) -> (Box<[UnsafeCell<S>]>, Box<[Home<S>]>) {
        let count = std::mem::take(&mut self.slot_count);
        let slots = std::mem::replace(&mut self.slots, NonNull::dangling());
        match self.ground {
            #[cfg(all(target_os = "linux", any(target_arch = "x86_64", target_arch = "aarch64")))]
            Ground::Mapping { .. } => (Box::new([]), Box::new([])),
            // SAFETY: a boxed list of this type and length was made for the place (`on_heap`), and is taken out once: then the
            // count is 0, and a list of none is at no place.
            Ground::Own if count == 0 => (Box::new([]), Box::new([])),
            // SAFETY: as above.
            Ground::Own if const { is_word::<S>() } => unsafe { (boxed(slots.cast(), count), Box::new([])) },
            // SAFETY: as above.
            Ground::Own => unsafe { (Box::new([]), boxed(slots.cast(), count)) },
        }
    }
}

impl<S> Drop for Place<S> {
    fn drop(&mut self) {
        drop(self.take_slots());
        if let Ground::Own = self.ground {
            // SAFETY: a boxed list of this length was made for the place (`on_heap`), and nobody has a word of it any more.
            drop(unsafe { boxed(self.words, self.word_count) });
        }
    }
}

/// The words as atomics.
fn atomic(words: &[u64]) -> Result<Box<[AtomicU64]>, AllocError> {
    let mut atomics = std::vec::Vec::new();
    atomics.try_reserve_exact(words.len())?;
    atomics.extend(words.iter().map(|word| AtomicU64::new(*word)));
    Ok(atomics.into_boxed_slice())
}

/// A boxed list of what is made of each value, by its first item.
fn leaked<S, T>(values: Vec<S>, each: impl Fn(S) -> T) -> Result<NonNull<u64>, Refused<S>> {
    let mut items = std::vec::Vec::new();
    if items.try_reserve_exact(values.len()).is_err() {
        return Err(Refused { slots: values });
    }
    items.extend(values.into_iter().map(each));
    Ok(first_of(items.into_boxed_slice()).cast())
}

/// A boxed list by its first item.
fn first_of<T>(items: Box<[T]>) -> NonNull<T> {
    NonNull::from(Box::leak(items)).cast()
}

/// The boxed list again.
///
/// # Safety
///
/// It was made of a list of so many items, and is made again once.
unsafe fn boxed<T>(first: NonNull<T>, count: usize) -> Box<[T]> {
    // SAFETY: the caller's duty.
    unsafe { Box::from_raw(slice_from_raw_parts_mut(first.as_ptr(), count)) }
}

#[cfg(test)]
mod tests {
    use super::Place;
    use rattle_std::alloc::Global;
    use rattle_std::vec::Vec;
    use std::sync::Arc;

    fn place<S, const N: usize>(values: [S; N]) -> Place<S> {
        Place::new(&[7, 8], Vec::from_array(Global, values).unwrap()).ok().unwrap()
    }

    /// How far the second value lies from the first, in bytes.
    fn distance<S>(place: &Place<S>) -> usize {
        place.slot(1).addr() - place.slot(0).addr()
    }

    #[test]
    fn words_lie_side_by_side() {
        let place = place([1u64, 2, 3]);
        assert_eq!(distance(&place), 8);
        assert_eq!(place.row(1, 2), place.slot(1));
        assert_eq!(place.word(1).load(std::sync::atomic::Ordering::SeqCst), 8);
        assert!(place.into_values().eq([1, 2, 3]));
    }

    #[test]
    fn other_values_lie_apart() {
        let place = place([Box::new(1u64), Box::new(2)]);
        assert_eq!(distance(&place), 128);
        assert!(place.into_values().eq([Box::new(1), Box::new(2)]));
    }

    #[test]
    fn values_that_nobody_takes_out_are_dropped_once() {
        let counted = Arc::new(());
        drop(place([Arc::clone(&counted), Arc::clone(&counted)]));
        assert_eq!(Arc::strong_count(&counted), 1);
        let mut values = place([Arc::clone(&counted), Arc::clone(&counted)]).into_values();
        drop(values.next());
        assert_eq!(Arc::strong_count(&counted), 2);
        drop(values);
        assert_eq!(Arc::strong_count(&counted), 1);
    }

    #[test]
    fn no_slots_and_no_words() {
        let none: Place<Box<u64>> = Place::new(&[], Vec::new(Global)).ok().unwrap();
        assert!(none.into_values().next().is_none());
        drop(place::<u64, 0>([]));
    }

    #[test]
    #[should_panic(expected = "a slot of the table")]
    fn past_the_last_slot() {
        place([1u64]).slot(1);
    }
}
