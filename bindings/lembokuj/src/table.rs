//! A hash table that many threads use at once.
//!
//! What the calls beneath ask of a caller is kept here: passes are used with their own table, area and region, and a key
//! has the number of words of the table's keys. Under a partition's lock only words are moved; the one function of a caller's that runs
//! there, that of `update_with`, is caught if it panics.

use crate::area::new_area;
use crate::shared::{reserved, shared};
use crate::words::RawWords;
use crate::{AllocError, AreaError, NoSpace, Words, errors};
use dsa_area::{Area, AreaPass, chunk_bytes};
use dshash_core::{CellObject, CoreOut, KeyWords, PARTITIONS, item_bytes};
use dshash_parts::{DsNew, DsPass, Dshash, MOST_KEY_WORDS};
use dshash_scan::count_all;
use rattle_std::alloc::Global;
use region_words::Region;
use std::any::Any;
use std::fmt;
use std::marker::PhantomData;
use std::panic::{AssertUnwindSafe, catch_unwind, resume_unwind};
use std::sync::{Arc, Mutex, PoisonError};

/// A key's words are written to a buffer on the stack, of one of these sizes or of the largest: what is cleared for a small
/// key is small.
const FEW_WORDS: usize = 4;
const SOME_WORDS: usize = 16;

/// The most words of a value.
const MOST_VALUE_WORDS: usize = 1 << 16;

/// Why there is no table, or, of one that processes share, why a call was not made: then nothing was done to the key.
#[derive(Clone, Copy, Debug, PartialEq, Eq)]
#[non_exhaustive]
pub enum TableError {
    /// More than 65,536 pages.
    Pages,
    /// No callers, or more than 4,096.
    Callers,
    /// There is no memory.
    Memory,
    /// The pages don't hold an empty table: that takes 16. Of a table that processes share: the pages are used up.
    NoSpace,
    /// A key of other than 1 to 64 words, or a value of too many.
    Words,
    /// Of a table that processes share: a process ended while it had the key's partition, or a lock of the pages that the call
    /// needs. What that guards is lost.
    OwnerDied,
    /// Of a table that processes share: the region is damaged.
    Damaged,
}

errors!(TableError {
    Pages => "a table has at most 65536 pages",
    Callers => "a table has 1 to 4096 callers",
    Memory => "out of memory",
    NoSpace => "the pages don't hold the table",
    Words => "a key or a value has a number of words that is out of range",
    OwnerDied => "a process ended while it had the lock",
    Damaged => "the region is damaged",
});

impl From<AreaError> for TableError {
    fn from(why: AreaError) -> TableError {
        match why {
            AreaError::Pages => TableError::Pages,
            AreaError::Callers => TableError::Callers,
            AreaError::NoSpace => TableError::NoSpace,
            AreaError::OwnerDied => TableError::OwnerDied,
            AreaError::Damaged => TableError::Damaged,
            AreaError::Memory | AreaError::Stranger => TableError::Memory,
        }
    }
}

impl From<AllocError> for TableError {
    fn from(_: AllocError) -> TableError {
        TableError::Memory
    }
}

/// Another caller has the key's partition at this moment. Nothing was done.
#[derive(Clone, Copy, Debug, PartialEq, Eq)]
pub struct Busy;

impl fmt::Display for Busy {
    fn fmt(&self, f: &mut fmt::Formatter<'_>) -> fmt::Result {
        f.write_str("another caller has the key's partition")
    }
}

impl std::error::Error for Busy {}

/// What lies under a key.
struct Cell<V>(PhantomData<fn() -> V>);

/// What makes a new value of the one that is there and of the one that the caller brings.
type Step<V> = fn(Option<&V>, &V) -> Option<V>;

/// What is asked of a key.
pub(crate) enum Ask<V: Words> {
    Get,
    /// Put these words.
    Insert(V::Raw),
    /// Put these words if some are there.
    Replace(V::Raw),
    Remove,
    /// If these are there (or none), put those (or none).
    Swap(Option<V::Raw>, Option<V::Raw>),
    /// Put what the function makes of what is there and of this.
    Update(V::Raw, Step<V>),
}

impl<V: Words> Clone for Ask<V> {
    fn clone(&self) -> Ask<V> {
        *self
    }
}

impl<V: Words> Copy for Ask<V> {}

/// The words before the call; or the caller's function panicked, and nothing was changed.
enum Reply<V: Words> {
    Before(Option<V::Raw>),
    Panicked(Box<dyn Any + Send>),
}

impl<V: Words> Reply<V> {
    /// The words before the call. The caller's panic goes on here, with no lock held.
    fn before(self) -> Option<V::Raw> {
        match self {
            Reply::Before(raw) => raw,
            Reply::Panicked(why) => resume_unwind(why),
        }
    }
}

/// What a function makes of the words that are there and of the caller's.
fn stepped<V: Words>(before: Option<&V::Raw>, with: &V::Raw, step: Step<V>) -> Option<V::Raw> {
    step(before.map(V::load).as_ref(), &V::load(with)).map(|value| value.store())
}

impl<V: Words> CellObject for Cell<V> {
    const VALUE_WORDS: usize = V::WORDS;

    type State = V::Raw;
    type Call = Ask<V>;
    type Reply = Reply<V>;

    #[inline]
    fn step(state: Option<&V::Raw>, call: &Ask<V>) -> (Option<V::Raw>, Reply<V>) {
        let before = state.copied();
        let after = match call {
            Ask::Get => before,
            Ask::Insert(raw) => Some(*raw),
            Ask::Replace(raw) => before.map(|_| *raw),
            Ask::Remove => None,
            Ask::Swap(expected, new) => if before == *expected { *new } else { before },
            // The lock has to be given back, so a panic waits until it is.
            Ask::Update(with, step) => match catch_unwind(AssertUnwindSafe(|| stepped(state, with, *step))) {
                Ok(after) => after,
                Err(why) => return (before, Reply::Panicked(why)),
            },
        };
        (after, Reply::Before(before))
    }

    #[inline]
    fn reads(call: &Ask<V>) -> bool {
        matches!(call, Ask::Get)
    }

    #[inline]
    fn encode(state: &V::Raw, out: &mut [u64]) {
        state.write(out);
    }

    #[inline]
    fn decode(words: &[u64]) -> V::Raw {
        V::Raw::read(words)
    }
}

/// What all callers share, and the passes of the handles that are not out.
struct Shared<V: Words> {
    region: Region,
    area: Area,
    table: Dshash<Cell<V>>,
    spare: Mutex<Vec<Passes<V>>>,
}

/// What a handle calls with.
struct Passes<V: Words> {
    table: DsPass<Cell<V>>,
    area: AreaPass,
}

/// A handle of a table from keys to values. Keys are the same if their words are.
///
/// A call takes the lock of one of 128 partitions, by the key's hash, for a walk along one chain of items. That hash is fixed
/// and known: a caller that chooses the keys can choose them in one chain (HashDoS), so a table of strangers' keys is made with a seed
/// ([`Table::open_with_seed`]). A table that is full refuses new keys and goes on with those that it has.
///
/// ```
/// use lembokuj::Table;
///
/// let mut handles = Table::<u64, u64>::for_keys(1000, 3)?;
/// let mut last = handles.pop().ok_or("no handle")?;
/// let workers: Vec<_> = handles
///     .into_iter()
///     .map(|mut table| {
///         std::thread::spawn(move || {
///             for n in 0..1000 {
///                 table.update(&(n % 10), |old| Some(old.unwrap_or(&0) + 1)).unwrap();
///             }
///         })
///     })
///     .collect();
/// workers.into_iter().for_each(|worker| worker.join().unwrap());
/// assert_eq!(last.get(&3), Some(200));
/// assert_eq!(last.entries()?.len(), 10);
/// assert_eq!(last.count(), 10);
/// assert_eq!(last.insert(&3, 5), Ok(Some(200)));
/// assert_eq!(last.remove(&3), Some(5));
/// assert_eq!(last.get(&3), None);
/// # Ok::<(), Box<dyn std::error::Error>>(())
/// ```
///
/// A key has 1 to 64 words:
///
/// ```compile_fail,E0080
/// lembokuj::Table::<[u64; 65], u64>::for_keys(1000, 1);
/// ```
pub struct Table<K, V: Words> {
    shared: Arc<Shared<V>>,
    /// Some up to the drop.
    passes: Option<Passes<V>>,
    /// The partition at which [`Table::take_any`] goes on.
    hand: u32,
    key: PhantomData<fn() -> K>,
}

impl<K, V: Words> fmt::Debug for Table<K, V> {
    fn fmt(&self, f: &mut fmt::Formatter<'_>) -> fmt::Result {
        f.write_str("Table { .. }")
    }
}

impl<K: Words, V: Words> Table<K, V> {
    /// How many partitions a table has.
    pub const PARTITIONS: u32 = PARTITIONS;

    /// A key's words, and a value's, that a table takes.
    const SIZES: () = {
        assert!(1 <= K::WORDS && K::WORDS <= MOST_KEY_WORDS, "a key has 1 to 64 words");
        assert!(V::WORDS <= MOST_VALUE_WORDS, "a value has at most 65536 words");
    };

    /// An empty table with room for `keys` keys, and a handle for each of its callers. It is sized by [`table_pages`], which is
    /// enough if the keys' hashes are well distributed.
    ///
    /// # Errors
    ///
    /// [`TableError`] has the causes.
    pub fn for_keys(keys: u64, callers: u32) -> Result<Vec<Table<K, V>>, TableError> {
        Table::with_pages(table_pages(keys, K::WORDS, V::WORDS), callers)
    }

    /// An empty table in an area of `pages` pages of 4 KiB, and a handle for each of its callers.
    ///
    /// # Errors
    ///
    /// [`TableError`] has the causes.
    pub fn with_pages(pages: u32, callers: u32) -> Result<Vec<Table<K, V>>, TableError> {
        let first = Table::open_pages(pages, callers)?;
        let mut handles = reserved(callers as usize)?;
        handles.extend(std::iter::from_fn(|| first.handle()));
        handles.push(first);
        Ok(handles)
    }

    /// As [`Table::for_keys`] with one handle; [`Table::handle`] makes the others, up to `callers` at a time.
    ///
    /// # Errors
    ///
    /// [`TableError`] has the causes.
    pub fn open(keys: u64, callers: u32) -> Result<Table<K, V>, TableError> {
        Table::open_pages(table_pages(keys, K::WORDS, V::WORDS), callers)
    }

    /// As [`Table::with_pages`] with one handle; [`Table::handle`] makes the others, up to `callers` at a time.
    ///
    /// # Errors
    ///
    /// [`TableError`] has the causes.
    pub fn open_pages(pages: u32, callers: u32) -> Result<Table<K, V>, TableError> {
        Table::open_pages_with_seed(pages, callers, 0)
    }

    /// As [`Table::open`], with a seed for keys that strangers choose: draw one for each table, and keep it from them. Keys that were
    /// chosen without knowing it lie in one chain no more than others, since SipHash-1-3 of the seed and the key says the chain; they
    /// may still be those of one partition. Each call hashes its key once more. The seed 0 is none.
    ///
    /// ```
    /// use lembokuj::Table;
    /// use std::hash::{BuildHasher, RandomState};
    ///
    /// let seed = RandomState::new().hash_one(0);
    /// let mut table = Table::<u64, u64>::open_with_seed(1000, 1, seed)?;
    /// assert_eq!(table.insert(&7, 1), Ok(None));
    /// assert_eq!(table.get(&7), Some(1));
    /// # Ok::<(), lembokuj::TableError>(())
    /// ```
    ///
    /// # Errors
    ///
    /// [`TableError`] has the causes.
    pub fn open_with_seed(keys: u64, callers: u32, seed: u64) -> Result<Table<K, V>, TableError> {
        Table::open_pages_with_seed(table_pages(keys, K::WORDS, V::WORDS), callers, seed)
    }

    /// As [`Table::open_pages`], with a seed as in [`Table::open_with_seed`].
    ///
    /// # Errors
    ///
    /// [`TableError`] has the causes.
    pub fn open_pages_with_seed(pages: u32, callers: u32, seed: u64) -> Result<Table<K, V>, TableError> {
        let () = Self::SIZES;
        Table::with_key_words(pages, callers, seed, K::WORDS as u32)
    }

    /// The value of a key. It takes nothing of the pages, so it answers if the table is full too, and it is one turn at
    /// the key's partition.
    #[must_use]
    pub fn get(&mut self, key: &K) -> Option<V> {
        self.get_raw(key).as_ref().map(V::load)
    }

    /// Whether there is such a key.
    #[must_use]
    pub fn contains(&mut self, key: &K) -> bool {
        self.get_raw(key).is_some()
    }

    /// Puts a value under a key, and gives the one that was there.
    ///
    /// # Errors
    ///
    /// [`NoSpace`]: the key is new, and the table has no room for it. Nothing was changed.
    pub fn insert(&mut self, key: &K, value: V) -> Result<Option<V>, NoSpace> {
        let before = self.call(key, &Ask::Insert(value.store()))?;
        Ok(before.as_ref().map(V::load))
    }

    /// Puts a value under a key that is there, and gives the one that was. None: the key is not there, and nothing was done.
    pub fn replace(&mut self, key: &K, value: V) -> Option<V> {
        // A call that puts in no key is never refused.
        let before = self.call(key, &Ask::Replace(value.store())).unwrap_or(None);
        before.as_ref().map(V::load)
    }

    /// Takes a key out, and gives the value that was there.
    pub fn remove(&mut self, key: &K) -> Option<V> {
        // A call that puts in no key is never refused.
        let before = self.call(key, &Ask::Remove).unwrap_or(None);
        before.as_ref().map(V::load)
    }

    /// Puts under a key what `step` makes of the value that is there, in one step for all threads: None takes the key out. Gives
    /// the value that was there before.
    ///
    /// `step` runs with no lock held, and again if another caller has changed the value meanwhile. So it may capture what it likes,
    /// take its time, and call other tables; a panic of it goes to the caller, and nothing was changed. It costs two turns at the
    /// partition, [`Table::update_with`] one.
    ///
    /// # Errors
    ///
    /// [`NoSpace`]: the key is new, and the table has no room for it. Nothing was changed.
    pub fn update(&mut self, key: &K, mut step: impl FnMut(Option<&V>) -> Option<V>) -> Result<Option<V>, NoSpace> {
        let mut seen = self.get_raw(key);
        loop {
            let before = seen.as_ref().map(V::load);
            let after = step(before.as_ref()).map(|value| value.store());
            let found = self.call(key, &Ask::Swap(seen, after))?;
            if found == seen {
                return Ok(before);
            }
            seen = found;
        }
    }

    /// As [`Table::update`] in one turn, by a function that captures nothing and is given `with`.
    ///
    /// `step` runs under the partition's lock, once or more: it is to be short, answer the same for the same values, and
    /// call nothing of a table.
    ///
    /// # Panics
    ///
    /// If `step` does, with what it panicked with; then the value stays, and others go on.
    ///
    /// # Errors
    ///
    /// As [`Table::update`].
    pub fn update_with(&mut self, key: &K, with: V, step: fn(Option<&V>, &V) -> Option<V>) -> Result<Option<V>, NoSpace> {
        let before = self.call(key, &Ask::Update(with.store(), step))?;
        Ok(before.as_ref().map(V::load))
    }

    /// The value of a key, or the new one that `make` gives, which is put there if no other caller is first. `make` runs with no
    /// lock held, at most once.
    ///
    /// # Errors
    ///
    /// As [`Table::insert`].
    pub fn get_or_insert_with(&mut self, key: &K, make: impl FnOnce() -> V) -> Result<V, NoSpace> {
        if let Some(value) = self.get(key) {
            return Ok(value);
        }
        let value = make();
        let found = self.call(key, &Ask::Swap(None, Some(value.store())))?;
        Ok(found.as_ref().map_or(value, V::load))
    }

    /// If the value of a key is `expected` (None: there is no such key), it becomes `new` (None: the key is taken out), in one
    /// step for all threads. Gives whether it was, by the words of both, or what was there instead.
    ///
    /// # Errors
    ///
    /// As [`Table::insert`].
    pub fn compare_and_put(&mut self, key: &K, expected: Option<&V>, new: Option<&V>) -> Result<Result<(), Option<V>>, NoSpace> {
        let expected = expected.map(V::store);
        let found = self.call(key, &Ask::Swap(expected, new.map(V::store)))?;
        Ok(if found == expected { Ok(()) } else { Err(found.as_ref().map(V::load)) })
    }

    /// As [`Table::get`], but does not wait for the partition.
    ///
    /// # Errors
    ///
    /// [`Busy`].
    pub fn try_get(&mut self, key: &K) -> Result<Option<V>, Busy> {
        Ok(self.try_call(key, &Ask::Get)?.as_ref().map(V::load))
    }

    /// As [`Table::replace`], but does not wait for the partition.
    ///
    /// # Errors
    ///
    /// [`Busy`].
    pub fn try_replace(&mut self, key: &K, value: V) -> Result<Option<V>, Busy> {
        Ok(self.try_call(key, &Ask::Replace(value.store()))?.as_ref().map(V::load))
    }

    /// As [`Table::remove`], but does not wait for the partition; it may wait for the area, to which the key's item goes.
    ///
    /// # Errors
    ///
    /// [`Busy`].
    pub fn try_remove(&mut self, key: &K) -> Result<Option<V>, Busy> {
        Ok(self.try_call(key, &Ask::Remove)?.as_ref().map(V::load))
    }

    /// Takes any entry out, as a cache that makes room does: partition after partition, round and round, from where this handle
    /// stopped last. None if each partition was found empty.
    ///
    /// # Errors
    ///
    /// [`AllocError`]: it takes memory for a key, and there is none. Nothing was taken.
    pub fn take_any(&mut self) -> Result<Option<(K, V)>, AllocError> {
        for _ in 0..PARTITIONS {
            let partition = self.hand;
            let Shared { region, area, table, .. } = &*self.shared;
            let Some(passes) = &mut self.passes else { unreachable!("a handle has its passes up to its drop") };
            let (pass, area_pass) = (&mut passes.table, &mut passes.area);
            let taken = table.take_any(&crate::HOST, Global, region, area, pass, area_pass, partition, &Ask::Remove)?;
            if let Some((key, reply)) = taken
                && let Some(value) = reply.before()
            {
                return Ok(Some((K::load(&K::Raw::read(key.words())), V::load(&value))));
            }
            self.hand = (partition + 1) % PARTITIONS;
        }
        Ok(None)
    }

    /// The entries of one partition, as they were at one moment, in no order. It takes memory for them. None above 127.
    ///
    /// # Errors
    ///
    /// [`AllocError`].
    pub fn partition(&mut self, number: u32) -> Result<Vec<(K, V)>, AllocError> {
        if number >= PARTITIONS {
            return Ok(Vec::new());
        }
        let listed = self.listed(number)?;
        let mut entries = reserved(listed.len())?;
        entries.extend(listed.map(|(key, raw)| (K::load(&K::Raw::read(key.words())), V::load(&raw))));
        Ok(entries)
    }

    /// Calls `each` with each key and value, with no lock held, partition after partition, each as it was at one moment; there is
    /// no one moment for all. It takes memory for one partition at a time.
    ///
    /// # Errors
    ///
    /// [`AllocError`]: some entries were not reached.
    pub fn for_each(&mut self, mut each: impl FnMut(K, V)) -> Result<(), AllocError> {
        for number in 0..PARTITIONS {
            self.partition(number)?.into_iter().for_each(|(key, value)| each(key, value));
        }
        Ok(())
    }

    /// All keys with their values, as [`Table::for_each`] finds them. It takes memory for all of them.
    ///
    /// # Errors
    ///
    /// [`AllocError`].
    pub fn entries(&mut self) -> Result<Vec<(K, V)>, AllocError> {
        let mut all = Vec::new();
        for number in 0..PARTITIONS {
            let entries = self.partition(number)?;
            all.try_reserve(entries.len())?;
            all.extend(entries);
        }
        Ok(all)
    }

    /// Takes out each entry of which `keep` says no. `keep` runs with no lock held, and again if another caller has changed the
    /// value meanwhile: an entry goes only with the value that was judged. Gives how many went. It takes memory for one partition
    /// at a time.
    ///
    /// # Errors
    ///
    /// [`AllocError`]: some entries were not judged.
    pub fn retain(&mut self, mut keep: impl FnMut(&K, &V) -> bool) -> Result<u64, AllocError> {
        let mut gone = 0;
        for number in 0..PARTITIONS {
            for (key, value) in self.partition(number)? {
                gone += u64::from(self.remove_unless(&key, value, &mut keep));
            }
        }
        Ok(gone)
    }

    /// Takes a key out unless its value is to stay, which begins with one that was seen. Whether it went.
    fn remove_unless(&mut self, key: &K, seen: V, keep: &mut impl FnMut(&K, &V) -> bool) -> bool {
        let mut seen = seen;
        loop {
            if keep(key, &seen) {
                return false;
            }
            match self.compare_and_put(key, Some(&seen), None) {
                Ok(Err(Some(found))) => seen = found,
                answer => return matches!(answer, Ok(Ok(()))),
            }
        }
    }

    /// Takes out all entries that are found, partition after partition; what others put in meanwhile may stay. Gives how many went.
    ///
    /// # Errors
    ///
    /// [`AllocError`]: it takes memory for a key, and there is none. The others are still there.
    pub fn clear(&mut self) -> Result<u64, AllocError> {
        let mut gone = 0;
        // At most the number that is there now, so that it ends while others put in.
        for _ in 0..self.count() {
            match self.take_any()? {
                Some(_) => gone += 1,
                None => break,
            }
        }
        Ok(gone)
    }

    fn get_raw(&mut self, key: &K) -> Option<V::Raw> {
        with_words(key, |words| self.get_at(words))
    }

    fn call(&mut self, key: &K, ask: &Ask<V>) -> Result<Option<V::Raw>, NoSpace> {
        with_words(key, |words| self.call_at(words, ask))
    }

    /// A call that puts in no key, made at once or not at all.
    fn try_call(&mut self, key: &K, ask: &Ask<V>) -> Result<Option<V::Raw>, Busy> {
        with_words(key, |words| self.try_call_at(words, ask))
    }
}

/// What does not depend on how many words a key has: that is known when a table is made.
impl<K, V: Words> Table<K, V> {
    /// One more handle, unless all that the table was made for are out. A handle that is dropped makes room for another.
    #[must_use]
    pub fn handle(&self) -> Option<Table<K, V>> {
        let passes = self.shared.spare.lock().unwrap_or_else(PoisonError::into_inner).pop()?;
        Some(Table {
            shared: Arc::clone(&self.shared),
            passes: Some(passes),
            hand: 0,
            key: PhantomData,
        })
    }

    /// How many keys there are: it adds up the 128 partitions one after another, so it is not a snapshot. It looks at one number in
    /// each, whatever the table holds, and takes no memory.
    #[must_use]
    pub fn count(&mut self) -> u64 {
        let Shared { region, table, .. } = &*self.shared;
        let Some(passes) = &mut self.passes else { unreachable!("a handle has its passes up to its drop") };
        let keys = count_all(&crate::HOST, table, region, &mut passes.table);
        // There are fewer keys than words of the region.
        u64::try_from(keys).unwrap_or(u64::MAX)
    }

    /// An empty table in `pages` pages with this seed, whose keys have `key_words` words, 1 to 64.
    pub(crate) fn with_key_words(pages: u32, callers: u32, seed: u64, key_words: u32) -> Result<Table<K, V>, TableError> {
        let (region, area, mut area_passes) = new_area(pages, callers, 1)?;
        let made = Dshash::with_seed(&crate::HOST, Global, &region, &area, &mut area_passes[0], seed, key_words, callers);
        let (table, passes) = made.map_err(|why| match why {
            DsNew::Memory => TableError::Memory,
            DsNew::NoSpace { .. } => TableError::NoSpace,
        })?;
        let mut spare = reserved(callers as usize)?;
        spare.extend(passes.into_iter().zip(area_passes).map(|(table, area)| Passes { table, area }));
        let passes = spare.pop();
        let common = Shared {
            region,
            area,
            table,
            spare: Mutex::new(spare),
        };
        Ok(Table {
            shared: shared(common)?,
            passes,
            hand: 0,
            key: PhantomData,
        })
    }

    /// The words under a key, which has just the number of words of the table's keys.
    pub(crate) fn get_at(&mut self, key: &[u64]) -> Option<V::Raw> {
        let Shared { region, table, .. } = &*self.shared;
        let Some(passes) = &mut self.passes else { unreachable!("a handle has its passes up to its drop") };
        table.find(&crate::HOST, region, &mut passes.table, key, &Ask::Get).before()
    }

    /// A call of such a key.
    pub(crate) fn call_at(&mut self, key: &[u64], ask: &Ask<V>) -> Result<Option<V::Raw>, NoSpace> {
        let Shared { region, area, table, .. } = &*self.shared;
        let Some(passes) = &mut self.passes else { unreachable!("a handle has its passes up to its drop") };
        let reply = table.call(&crate::HOST, region, area, &mut passes.table, &mut passes.area, key, ask)?;
        Ok(reply.before())
    }

    fn try_call_at(&mut self, key: &[u64], ask: &Ask<V>) -> Result<Option<V::Raw>, Busy> {
        let Shared { region, area, table, .. } = &*self.shared;
        let Some(passes) = &mut self.passes else { unreachable!("a handle has its passes up to its drop") };
        match table.try_call(region, &mut passes.table, key, ask, None) {
            Ok(CoreOut::Done { reply, freed, .. }) => {
                table.give_spare(&crate::HOST, region, area, &mut passes.area, freed);
                Ok(reply.before())
            }
            // A call that puts in no key needs no item, and no larger partition.
            Ok(CoreOut::NeedItem | CoreOut::TooFull { .. }) => Ok(None),
            Err(_) => Err(Busy),
        }
    }

    /// The words of the keys and values of a partition, as they were at one moment.
    pub(crate) fn listed(&mut self, number: u32) -> Result<impl ExactSizeIterator<Item = (KeyWords, V::Raw)>, AllocError> {
        let Shared { region, table, .. } = &*self.shared;
        let Some(passes) = &mut self.passes else { unreachable!("a handle has its passes up to its drop") };
        let listed = table.list_one(&crate::HOST, Global, region, &mut passes.table, number)?;
        Ok(listed.into_iter().map(|entry| (entry.key, entry.state)))
    }
}

impl<K, V: Words> Drop for Table<K, V> {
    fn drop(&mut self) {
        let passes = self.passes.take();
        self.shared.spare.lock().unwrap_or_else(PoisonError::into_inner).extend(passes);
    }
}

/// Makes a call with a key's words. Which buffer holds them is known when it is compiled.
fn with_words<K: Words, R>(key: &K, call: impl FnOnce(&[u64]) -> R) -> R {
    fn written<'a, K: Words>(key: &K, buffer: &'a mut [u64]) -> &'a [u64] {
        let words = &mut buffer[..K::WORDS];
        key.store().write(words);
        words
    }
    if K::WORDS <= FEW_WORDS {
        call(written(key, &mut [0; FEW_WORDS]))
    } else if K::WORDS <= SOME_WORDS {
        call(written(key, &mut [0; SOME_WORDS]))
    } else {
        call(written(key, &mut [0; MOST_KEY_WORDS]))
    }
}

/// The bytes of a page, of the pages that one size class takes at a time, and of the largest class.
const PAGE: u64 = 4096;
const SUPERBLOCK_PAGES: u64 = 16;
const LARGEST_CLASS: u64 = 8192;

/// How many pages an area needs for a table of `keys` keys whose hashes are well distributed. It counts: for the keys' items,
/// whole superblocks of 16 pages; for the bucket slices of all partitions, those of the size that they come to and of
/// each smaller one, since slices of two sizes are out while the partitions grow, and what is given back may lie apart.
/// An empty table takes 16 pages.
///
/// ```
/// use lembokuj::{Table, table_pages};
///
/// assert_eq!(table_pages(1000, 1, 1), 112);
/// let mut table = Table::<u64, u64>::with_pages(112, 1)?.pop().unwrap();
/// assert!((0..1000).all(|key| table.insert(&key, key).is_ok()));
/// # Ok::<(), lembokuj::TableError>(())
/// ```
#[must_use]
pub fn table_pages(keys: u64, key_words: usize, value_words: usize) -> u32 {
    let partitions = u64::from(PARTITIONS);
    let item = chunk_bytes(item_bytes(key_words as u32, value_words as u32));
    let items = chunks_pages(keys, item);
    // A partition has its share of the keys and some more.
    let share = keys / partitions;
    let mut buckets = 1;
    while buckets * 3 / 4 < share + 4 * share.isqrt() + 4 && buckets < 1 << 13 {
        buckets *= 2;
    }
    let mut slices = 0;
    let mut size = 8;
    while size <= 8 * buckets {
        slices += chunks_pages(partitions, chunk_bytes(size));
        size *= 2;
    }
    u32::try_from(items.saturating_add(slices)).unwrap_or(u32::MAX)
}

/// The pages that `count` chunks of one size take at most.
fn chunks_pages(count: u64, bytes: u64) -> u64 {
    if bytes > LARGEST_CLASS {
        return count.saturating_mul(bytes.div_ceil(PAGE));
    }
    let a_superblock = SUPERBLOCK_PAGES * PAGE / bytes;
    count.div_ceil(a_superblock) * SUPERBLOCK_PAGES
}
