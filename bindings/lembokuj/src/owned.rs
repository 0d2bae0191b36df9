//! A table whose values are owned things, as chunks of an area are.
//!
//! A [`Table`] holds words. Here its words are a place in a list of slots and the number of the value there, and each slot keeps
//! its value under its own lock. A number is never used again, so a caller that has looked a key up sees at the slot whether that is
//! still its value.

use crate::shared::{reserved, shared};
use crate::{AllocError, Chunk, NoSpace, Table, TableError, Words};
use std::fmt;
use std::sync::{Arc, Mutex, MutexGuard, PoisonError};

/// Why a value was not put in; it comes back with this.
#[derive(Clone, Copy, Debug, PartialEq, Eq)]
#[non_exhaustive]
pub enum OwnedError {
    /// The table has all the values that it has room for: those that it was made for, and one more for each of its callers.
    Full,
    /// The table of keys has no room for the key.
    NoSpace(NoSpace),
}

impl fmt::Display for OwnedError {
    fn fmt(&self, f: &mut fmt::Formatter<'_>) -> fmt::Result {
        match self {
            OwnedError::Full => f.write_str("the table has as many values as it has room for"),
            OwnedError::NoSpace(why) => why.fmt(f),
        }
    }
}

impl std::error::Error for OwnedError {}

/// A place of one value, and the number of the last that was put there.
struct Slot<T> {
    number: u64,
    value: Option<T>,
}

struct Slots<T> {
    slots: Vec<Mutex<Slot<T>>>,
    free: Mutex<Vec<u64>>,
}

fn locked<T>(lock: &Mutex<T>) -> MutexGuard<'_, T> {
    lock.lock().unwrap_or_else(PoisonError::into_inner)
}

impl<T> Slots<T> {
    fn new(count: usize) -> Result<Slots<T>, AllocError> {
        let mut slots = reserved(count)?;
        slots.extend((0..count).map(|_| {
            Mutex::new(Slot {
                number: 0,
                value: None,
            })
        }));
        let mut free = reserved(count)?;
        free.extend((0..count as u64).rev());
        Ok(Slots {
            slots,
            free: Mutex::new(free),
        })
    }

    /// Puts a value into a free slot, and gives the slot and the value's number.
    fn fill(&self, value: T) -> Result<[u64; 2], T> {
        let Some(at) = locked(&self.free).pop() else {
            return Err(value);
        };
        let mut slot = locked(&self.slots[at as usize]);
        slot.number += 1;
        slot.value = Some(value);
        Ok([at, slot.number])
    }

    /// Takes the value of a slot out, if it is that of the number, and frees the slot.
    fn empty(&self, [at, number]: [u64; 2]) -> Option<T> {
        let mut slot = locked(&self.slots[at as usize]);
        let value = if slot.number == number { slot.value.take() } else { None };
        drop(slot);
        if value.is_some() {
            locked(&self.free).push(at);
        }
        value
    }
}

/// A handle of a table from keys to values that are owned: chunks of an area ([`ChunkTable`]), lists, files. A value lies
/// under its own lock, so a long look at one keeps nobody from the others. Each `insert`, `remove` and `with` of a key is one step
/// for all callers: one that begins after another has ended finds what that left. No contract says so, since this is code over
/// [`Table`](crate::Table); it is tested.
///
/// ```
/// use lembokuj::{Area, ChunkTable, Text};
///
/// let mut area = Area::open(64, 1)?;
/// let mut pages = ChunkTable::<Text<4>>::open(100, 2)?;
/// let name = Text::new("front page").ok_or("too long")?;
/// let chunk = area.alloc_bytes(b"news")?;
/// assert!(pages.insert(&name, chunk).map_err(|(why, _)| why)?.is_none());
/// // Another thread reads and changes it where it lies.
/// let mut other = pages.handle().ok_or("no handle")?;
/// std::thread::spawn(move || other.with(&name, |chunk| chunk.write_bytes(0, b"olds"))).join().unwrap().ok_or("not there")??;
/// // Its owner gets it back.
/// let chunk = pages.remove(&name).ok_or("not there")?;
/// let mut bytes = [0; 4];
/// chunk.read_bytes(0, &mut bytes)?;
/// assert_eq!(&bytes, b"olds");
/// # Ok::<(), Box<dyn std::error::Error>>(())
/// ```
pub struct OwnedTable<K, T> {
    keys: Table<K, [u64; 2]>,
    slots: Arc<Slots<T>>,
}

/// A table whose values are chunks of an area.
pub type ChunkTable<K> = OwnedTable<K, Chunk>;

impl<K, T> fmt::Debug for OwnedTable<K, T> {
    fn fmt(&self, f: &mut fmt::Formatter<'_>) -> fmt::Result {
        f.write_str("OwnedTable { .. }")
    }
}

impl<K: Words, T: Send> OwnedTable<K, T> {
    /// An empty table for `values` values; [`OwnedTable::handle`] makes more handles, up to `callers` at a time. It takes memory for
    /// all values from the start, and for their keys. A value that takes another's place is put in before that one comes out, for which
    /// there is room for one more value for each caller: so new keys may be refused only at `values + callers` values. A caller that
    /// needs another bound counts for itself.
    ///
    /// # Errors
    ///
    /// [`TableError`] has the causes.
    pub fn open(values: u32, callers: u32) -> Result<OwnedTable<K, T>, TableError> {
        OwnedTable::open_with_seed(values, callers, 0)
    }

    /// As [`OwnedTable::open`], with a seed as in [`Table::open_with_seed`].
    ///
    /// # Errors
    ///
    /// [`TableError`] has the causes.
    pub fn open_with_seed(values: u32, callers: u32, seed: u64) -> Result<OwnedTable<K, T>, TableError> {
        let keys = Table::open_with_seed(u64::from(values), callers, seed)?;
        // A value that takes another's place is in its slot before that one leaves.
        let count = u64::from(values) + u64::from(callers);
        let slots = Slots::new(usize::try_from(count).map_err(|_| TableError::Memory)?)?;
        Ok(OwnedTable {
            keys,
            slots: shared(slots)?,
        })
    }

    /// One more handle, unless all that the table was made for are out.
    #[must_use]
    pub fn handle(&self) -> Option<OwnedTable<K, T>> {
        Some(OwnedTable {
            keys: self.keys.handle()?,
            slots: Arc::clone(&self.slots),
        })
    }

    /// Puts a value under a key, and gives the one that was there.
    ///
    /// # Errors
    ///
    /// The value comes back with the cause; nothing was changed.
    pub fn insert(&mut self, key: &K, value: T) -> Result<Option<T>, (OwnedError, T)> {
        let place = self.slots.fill(value).map_err(|value| (OwnedError::Full, value))?;
        match self.keys.insert(key, place) {
            Ok(before) => Ok(before.and_then(|place| self.slots.empty(place))),
            Err(why) => match self.slots.empty(place) {
                Some(value) => Err((OwnedError::NoSpace(why), value)),
                None => unreachable!("no key led to the value"),
            },
        }
    }

    /// Calls a function with the value of a key, if there is one, under the value's lock: other callers of this key wait meanwhile,
    /// also those that insert or remove it. If it panics the value stays as it left it. It must not call this table with a key whose
    /// value another thread may hold while it waits for this one.
    pub fn with<R>(&mut self, key: &K, call: impl FnOnce(&mut T) -> R) -> Option<R> {
        loop {
            let [at, number] = self.keys.get(key)?;
            let mut slot = locked(&self.slots.slots[at as usize]);
            if slot.number == number
                && let Some(value) = &mut slot.value
            {
                return Some(call(value));
            }
            // It was taken out in between: the key leads to another value, or to none.
        }
    }

    /// Takes a key out and gives its value, if the function says so, which is called as by [`OwnedTable::with`]: so a cache takes out the
    /// entry that it has judged, and no later one. None if the key is not there, if the function says no, or if another caller was
    /// putting in a new value or taking out this one meanwhile; then the table is as that caller left it.
    ///
    /// ```
    /// let mut table = lembokuj::OwnedTable::<u64, String>::open(10, 1)?;
    /// table.insert(&1, "first".to_owned()).map_err(|(why, _)| why)?;
    /// assert_eq!(table.remove_if(&1, |text| text.is_empty()), None);
    /// assert_eq!(table.remove_if(&1, |text| text.len() == 5), Some("first".to_owned()));
    /// assert!(!table.contains(&1));
    /// # Ok::<(), Box<dyn std::error::Error>>(())
    /// ```
    pub fn remove_if(&mut self, key: &K, judge: impl FnOnce(&mut T) -> bool) -> Option<T> {
        loop {
            let [at, number] = self.keys.get(key)?;
            let mut slot = locked(&self.slots.slots[at as usize]);
            if slot.number == number
                && let Some(value) = &mut slot.value
            {
                if !judge(value) {
                    return None;
                }
                // Nobody waits for a slot while it has a partition, so the key's partition may be taken here.
                let Ok(Ok(())) = self.keys.compare_and_put(key, Some(&[at, number]), None) else {
                    return None;
                };
                let value = slot.value.take();
                drop(slot);
                locked(&self.slots.free).push(at);
                return value;
            }
        }
    }

    /// Takes a key out, and gives its value.
    pub fn remove(&mut self, key: &K) -> Option<T> {
        let place = self.keys.remove(key)?;
        self.slots.empty(place)
    }

    /// Takes any entry out, as a cache that makes room does: see [`Table::take_any`].
    ///
    /// # Errors
    ///
    /// As [`Table::take_any`].
    pub fn take_any(&mut self) -> Result<Option<(K, T)>, AllocError> {
        let taken = self.keys.take_any()?;
        Ok(taken.and_then(|(key, place)| self.slots.empty(place).map(|value| (key, value))))
    }

    /// Whether there is such a key.
    #[must_use]
    pub fn contains(&mut self, key: &K) -> bool {
        self.keys.contains(key)
    }

    /// How many keys there are: see [`Table::count`].
    #[must_use]
    pub fn count(&mut self) -> u64 {
        self.keys.count()
    }
}
