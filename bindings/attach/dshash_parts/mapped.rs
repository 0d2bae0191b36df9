//! A table that lies in a mapping, as each process has it, and one turn at a partition that gives up if the partition's
//! holder has ended. Not proved.
use crate::asks::{TableAnswer, TableAsk};
use crate::numbered::Numbered;
use crate::table::{DsPass, Dshash};
use atomic_table::{Mapping, Site};
use dshash_core::{CellObject, PARTITIONS};
use lock_book::Shelf;
use region_words::Region;
use std::sync::Arc;

/// Where a table lies, which has no seed.
#[derive(Clone, Copy, Debug, PartialEq, Eq)]
pub struct TableSite {
    /// The words of a key.
    pub key_words: u32,
    /// The bytes of an item.
    pub item_bytes: u64,
    /// The shelf of the partitions.
    pub shelf: Site,
}

impl<O: CellObject + Send> Dshash<O>
where
    O::State: Send,
    O::Call: Send,
    O::Reply: Send,
{
    /// Where it lies.
    ///
    /// # Panics
    ///
    /// If it has a seed, which a site doesn't say.
    pub fn site(&self) -> TableSite {
        assert_eq!(self.seed, 0, "a table that other processes attach has no seed");
        TableSite {
            key_words: self.key_words,
            item_bytes: self.item_bytes,
            shelf: self.shelf.site(),
        }
    }

    /// Whether a mapping of so many words has the shelf there.
    pub fn fits(site: &TableSite, words: u64) -> bool {
        Shelf::<Numbered<O>>::fits(site.shelf, u64::from(PARTITIONS), words)
    }

    /// The bytes of a partition in its slot, and their alignment.
    pub fn slot_layout() -> [u64; 2] {
        Shelf::<Numbered<O>>::slot_layout()
    }

    /// The table at a site.
    ///
    /// # Safety
    ///
    /// As `atomic_table::Table::attach`.
    pub unsafe fn attach(mapping: &Arc<Mapping>, site: &TableSite, callers: u32) -> Dshash<O> {
        Dshash {
            seed: 0,
            key_words: site.key_words,
            item_bytes: site.item_bytes,
            // SAFETY: as the caller says.
            shelf: unsafe { Shelf::attach(mapping, site.shelf, callers) },
            home: None,
        }
    }

    /// Whether the pass of this number has a partition.
    pub fn is_held_by(&self, number: u32) -> bool {
        self.shelf.is_held_by(number)
    }

    /// A turn at the partition of this number; the ask comes back if the pass that has it does not live any more.
    pub fn turn_while(
        &self,
        r: &Region,
        pass: &mut DsPass<O>,
        partition: u32,
        ask: TableAsk<O>,
        lives: &dyn Fn(u32) -> bool,
    ) -> Result<TableAnswer<O>, TableAsk<O>> {
        self.shelf.call_while(r, pass, partition as usize, ask, lives)
    }
}
