//! A hash table of numbers under numbers, which several processes use at once.

use crate::processes::directory::{Entry, Object};
use crate::TableError;
use crate::link::Damage;
use crate::processes::map::Map;
use crate::processes::region::{FREE, Handle, Region, TakeError};
use dsa_area::{AreaPass, NoSpace};
use dshash_core::{CellObject, CoreOut, PARTITIONS, bucket_count, hash_key, partition_of_hash};
use dshash_parts::{DsPass, Dshash, Key, TableAnswer, TableAsk};
use rattle_std::alloc::Global;
use region_words::Chunk;
use std::fmt;
use std::sync::Arc;

impl From<Damage> for TableError {
    fn from(_: Damage) -> TableError {
        TableError::Damaged
    }
}

/// The object under a key: a number.
pub(crate) struct Numbers;

/// What is asked of a key.
#[derive(Clone, Copy)]
pub(crate) enum Ask {
    Get,
    Insert(u64),
    Remove,
    Add(u64),
}

impl CellObject for Numbers {
    const VALUE_WORDS: usize = 1;

    type State = u64;
    type Call = Ask;
    /// The number before the call.
    type Reply = Option<u64>;

    fn step(state: Option<&u64>, call: &Ask) -> (Option<u64>, Option<u64>) {
        let before = state.copied();
        let after = match call {
            Ask::Get => before,
            Ask::Insert(value) => Some(*value),
            Ask::Remove => None,
            Ask::Add(more) => Some(before.unwrap_or(0).wrapping_add(*more)),
        };
        (after, before)
    }

    fn reads(call: &Ask) -> bool {
        matches!(call, Ask::Get)
    }

    fn encode(state: &u64, out: &mut [u64]) {
        out[0] = *state;
    }

    fn decode(words: &[u64]) -> u64 {
        words[0]
    }
}

/// One caller's handle. If it is dropped, another process may take it.
pub struct Table {
    handle: Handle,
    at: At,
}

/// The objects' own handles.
struct At {
    table: Dshash<Numbers>,
    pass: DsPass<Numbers>,
    area: dsa_area::Area,
    area_pass: AreaPass,
    /// A bit for each partition whose lock was found with a process that has ended: nobody takes it from there.
    lost: u128,
}

impl fmt::Debug for Table {
    fn fmt(&self, f: &mut fmt::Formatter<'_>) -> fmt::Result {
        f.debug_struct("Table").field("key", &self.handle.entry.key).finish_non_exhaustive()
    }
}

/// The table and its area, as a process has them.
pub(crate) fn attached(map: &Map, object: &Object, callers: u32) -> Option<(Dshash<Numbers>, dsa_area::Area)> {
    let Object::Table(area, table) = object else { return None };
    // SAFETY: the directory says that they are there, and was looked at; the layouts agree, by the head's sum; no value of
    // theirs has a pointer.
    let both = unsafe {
        let table = Dshash::attach(&map.mapping, table, callers);
        (table, dsa_area::Area::attach(&map.mapping, area, callers))
    };
    Some(both)
}

impl Region {
    /// A handle of a table.
    ///
    /// # Errors
    ///
    /// [`TakeError::NoKey`], [`TakeError::Taken`].
    pub fn table(&self, key: u64) -> Result<Table, TakeError> {
        let entry = self.map.directory.find(key).ok_or(TakeError::NoKey)?;
        Table::take(&self.map, entry)
    }
}

impl Table {
    fn take(map: &Arc<Map>, entry: &Arc<Entry>) -> Result<Table, TakeError> {
        let (table, area) = attached(map, &entry.object, entry.handles).ok_or(TakeError::NoKey)?;
        let handle = Handle::take_any(map, entry)?;
        let at = At {
            table,
            pass: DsPass::<Numbers>::taken(handle.number),
            area,
            area_pass: AreaPass::taken(handle.number),
            lost: 0,
        };
        Ok(Table { handle, at })
    }

    /// One more handle, for this process; None if all that the table was made for are with processes.
    #[must_use]
    pub fn handle(&self) -> Option<Table> {
        Table::take(&self.handle.map, &self.handle.entry).ok()
    }
}

impl At {
    /// A chunk of the table's area.
    fn ask(&mut self, handle: &Handle, bytes: u64) -> Result<Chunk, TableError> {
        let asked = self.area.alloc_while(&handle.map.region, &mut self.area_pass, bytes, &|n| handle.lives(n));
        match asked {
            Ok(Ok(chunk)) => Ok(chunk),
            Ok(Err(NoSpace { .. })) => Err(TableError::NoSpace),
            Err(_) => Err(TableError::OwnerDied),
        }
    }

    /// Gives a chunk back. If a lock of the area is lost, so is the chunk.
    fn give(&mut self, handle: &Handle, chunk: Option<Chunk>) {
        if let Some(chunk) = chunk {
            let _lost = self.area.free_while(&handle.map.region, &mut self.area_pass, chunk, &|n| handle.lives(n));
        }
    }

    /// A turn at a partition, unless its lock is lost: only the first call that meets that waits to learn it.
    #[expect(clippy::result_large_err, reason = "the ask comes back as it came")]
    fn turn(&mut self, handle: &Handle, partition: u32, ask: TableAsk<Numbers>) -> Result<TableAnswer<Numbers>, TableAsk<Numbers>> {
        let bit = 1 << partition;
        if self.lost & bit != 0 {
            return Err(ask);
        }
        let answer = self.table.turn_while(&handle.map.region, &mut self.pass, partition, ask, &|n| handle.lives(n));
        if answer.is_err() {
            self.lost |= bit;
        }
        answer
    }

    /// A call of a key: turns at its partition, and between them what it lacks.
    fn call(&mut self, handle: &Handle, key: u64, call: Ask) -> Result<Option<u64>, TableError> {
        let key = [key];
        let hash = hash_key(&key);
        let partition = partition_of_hash(hash);
        let mut spare = None;
        loop {
            let ask = TableAsk::Make(hash, Key::of(&key), call, spare.take());
            match self.turn(handle, partition, ask) {
                Ok(TableAnswer::Came(CoreOut::Done { reply, unused, freed })) => {
                    self.give(handle, unused);
                    self.give(handle, freed);
                    return Ok(reply);
                }
                Ok(TableAnswer::Came(CoreOut::NeedItem)) => spare = Some(self.ask(handle, self.table.site().item_bytes)?),
                Ok(TableAnswer::Came(CoreOut::TooFull { size, spare: kept })) => {
                    let grown = self.grow(handle, partition, size + 1);
                    if let Err(why) = grown {
                        self.give(handle, kept);
                        return Err(why);
                    }
                    spare = kept;
                }
                Err(TableAsk::Make(_, _, _, kept)) => {
                    self.give(handle, kept);
                    return Err(TableError::OwnerDied);
                }
                _ => unreachable!("a call is answered as one"),
            }
        }
    }

    /// Moves a partition to a larger slice. The others keep theirs: a partition that is lost hinders only its own keys.
    fn grow(&mut self, handle: &Handle, partition: u32, size: u32) -> Result<(), TableError> {
        let slice = self.ask(handle, 8 * bucket_count(size))?;
        match self.turn(handle, partition, TableAsk::Grow(size, slice)) {
            Ok(TableAnswer::LeftOver(left)) => {
                self.give(handle, Some(left));
                Ok(())
            }
            Err(TableAsk::Grow(_, slice)) => {
                self.give(handle, Some(slice));
                Err(TableError::OwnerDied)
            }
            _ => unreachable!("a move is answered as one"),
        }
    }
}

impl Table {
    fn call(&mut self, key: u64, call: Ask) -> Result<Option<u64>, TableError> {
        let Table { handle, at } = self;
        let map = Arc::clone(&handle.map);
        map.guard(|| at.call(handle, key, call))?
    }

    /// The number under a key. If its partition is lost, the first call of this handle there waits some 10 ms for an answer of the
    /// system, and later ones answer at once.
    ///
    /// # Errors
    ///
    /// [`TableError::OwnerDied`], [`TableError::Damaged`].
    pub fn get(&mut self, key: u64) -> Result<Option<u64>, TableError> {
        self.call(key, Ask::Get)
    }

    /// Puts a number under a key; the one before.
    ///
    /// # Errors
    ///
    /// [`TableError::NoSpace`] for a new key, [`TableError::OwnerDied`], [`TableError::Damaged`].
    pub fn insert(&mut self, key: u64, value: u64) -> Result<Option<u64>, TableError> {
        self.call(key, Ask::Insert(value))
    }

    /// Takes a key out; the number that was there.
    ///
    /// # Errors
    ///
    /// As [`Table::get`].
    pub fn remove(&mut self, key: u64) -> Result<Option<u64>, TableError> {
        self.call(key, Ask::Remove)
    }

    /// Adds to the number under a key, modulo 2^64, and makes it if it is not there; the one before.
    ///
    /// # Errors
    ///
    /// As [`Table::insert`].
    pub fn add(&mut self, key: u64, more: u64) -> Result<Option<u64>, TableError> {
        self.call(key, Ask::Add(more))
    }

    /// How many keys there are: each of the 128 partitions is counted at another moment.
    ///
    /// # Errors
    ///
    /// As [`Table::get`].
    pub fn count(&mut self) -> Result<u64, TableError> {
        let Table { handle, at } = self;
        let map = Arc::clone(&handle.map);
        map.guard(|| {
            let mut keys = 0;
            for partition in 0..PARTITIONS {
                match at.turn(handle, partition, TableAsk::Look) {
                    Ok(TableAnswer::Size(_, more)) => keys += more,
                    _ => return Err(TableError::OwnerDied),
                }
            }
            Ok(keys)
        })?
    }

    /// All keys with their numbers, in no order, each partition at another moment. It takes memory for them.
    ///
    /// # Errors
    ///
    /// [`TableError::Memory`], and as [`Table::get`].
    pub fn entries(&mut self) -> Result<Vec<(u64, u64)>, TableError> {
        let Table { handle, at } = self;
        let map = Arc::clone(&handle.map);
        map.guard(|| {
            let mut all = Vec::new();
            for partition in 0..PARTITIONS {
                match at.turn(handle, partition, TableAsk::List(Global)) {
                    Ok(TableAnswer::Entries(Ok(entries))) => {
                        all.extend(entries.into_iter().map(|entry| (entry.key.words()[0], entry.state)));
                    }
                    Ok(_) => return Err(TableError::Memory),
                    Err(_) => return Err(TableError::OwnerDied),
                }
            }
            Ok(all)
        })?
    }
}

impl Drop for Table {
    fn drop(&mut self) {
        if self.handle.map.is_ours() {
            self.handle.give(FREE);
        }
    }
}
