//! An area that lies in a mapping, as each process has it, and its requests as `objects`, `whole` and `requests` make them,
//! but that they give up if the holder of a lock has ended. Not proved.
use crate::area::{Area, AreaPass};
use crate::pages::{LockedPages, PagesAnswer, PagesAsk};
use crate::pools::{LockedPool, PoolAnswer, PoolAsk};
use crate::requests::{NoSpace, Stranger};
use crate::sizes::{FIRST_CLASS, LARGEST_SIZE, PAGE_BYTES, page_count};
use atomic_table::{Mapping, Site};
use free_pages::{CLASS_END, SUPERBLOCK_PAGES};
use lock_book::{Pass, Shelf};
use rattle_std::prelude::*;
use region_words::{Chunk, Region, Run};
use rel_pointer::RelPtr;
use size_classes::{class_of, class_with};
use std::sync::Arc;

/// The pass that has a lock does not live any more.
#[derive(Debug)]
pub struct HolderEnded;

/// Whether the pass of a number lives.
pub type Lives<'a> = &'a dyn Fn(u32) -> bool;

/// Where an area lies.
#[derive(Clone, Copy, Debug, PartialEq, Eq)]
pub struct AreaSite {
    /// The region's number of the first word of page 0.
    pub first: u64,
    /// How many pages there are.
    pub pages: u32,
    /// The shelf of the pages.
    pub page_shelf: Site,
    /// The shelf of the pools.
    pub pool_shelf: Site,
}

const POOLS: u64 = CLASS_END - FIRST_CLASS as u64;

fn at_pages(area: &Area, r: &Region, pass: &mut AreaPass, ask: PagesAsk, lives: Lives) -> Result<PagesAnswer, HolderEnded> {
    area.pages.call_while(r, &mut pass.pages, 0, ask, lives).map_err(|_| HolderEnded)
}

fn at_pool(area: &Area, r: &Region, pass: &mut AreaPass, class: u8, ask: PoolAsk, lives: Lives) -> Result<PoolAnswer, PoolAsk> {
    area.pools.call_while(r, &mut pass.pools, usize::from(class - FIRST_CLASS), ask, lives)
}

impl Area {
    /// Where it lies.
    pub fn site(&self) -> AreaSite {
        AreaSite {
            first: self.first,
            pages: self.count,
            page_shelf: self.pages.site(),
            pool_shelf: self.pools.site(),
        }
    }

    /// Whether a mapping of so many words has both shelves there.
    pub fn fits(site: &AreaSite, words: u64) -> bool {
        Shelf::<LockedPages>::fits(site.page_shelf, 1, words) && Shelf::<LockedPool>::fits(site.pool_shelf, POOLS, words)
    }

    /// The bytes of the values in their slots, and their alignments.
    pub fn slot_layouts() -> [[u64; 2]; 2] {
        [Shelf::<LockedPages>::slot_layout(), Shelf::<LockedPool>::slot_layout()]
    }

    /// The area at a site.
    ///
    /// # Safety
    ///
    /// As `atomic_table::Table::attach`.
    pub unsafe fn attach(mapping: &Arc<Mapping>, site: &AreaSite, callers: u32) -> Area {
        Area {
            first: site.first,
            count: site.pages,
            // SAFETY: as the caller says.
            pages: unsafe { Shelf::attach(mapping, site.page_shelf, callers) },
            // SAFETY: as the caller says.
            pools: unsafe { Shelf::attach(mapping, site.pool_shelf, callers) },
        }
    }

    /// Whether the pass of this number has one of the locks.
    pub fn is_held_by(&self, number: u32) -> bool {
        self.pages.is_held_by(number) || self.pools.is_held_by(number)
    }

    /// As `alloc`.
    pub fn alloc_while(
        &self,
        r: &Region,
        pass: &mut AreaPass,
        bytes: u64,
        lives: Lives,
    ) -> Result<Result<Chunk, NoSpace>, HolderEnded> {
        let Some(class) = class_of(bytes as u32) else {
            let pages = page_count(bytes);
            let run = self.run_while(r, pass, pages, false, lives)?;
            return Ok(run.map(|Run { at, words, .. }| Chunk {
                at,
                bytes: PAGE_BYTES * u64::from(pages),
                part: words,
            }));
        };
        match at_pool(self, r, pass, class, PoolAsk::AllocObject, lives) {
            Ok(PoolAnswer::Given(object)) => Ok(Ok(object)),
            Ok(_) => self.object_of_new_run(r, pass, class, lives),
            Err(_) => Err(HolderEnded),
        }
    }

    fn run_while(
        &self,
        r: &Region,
        pass: &mut AreaPass,
        pages: u32,
        control: bool,
        lives: Lives,
    ) -> Result<Result<Run, NoSpace>, HolderEnded> {
        match at_pages(self, r, pass, PagesAsk::TakeRun(pages, control), lives)? {
            PagesAnswer::Granted(run) => Ok(Ok(run)),
            PagesAnswer::Refused(lack) => Ok(Err(NoSpace {
                pages: lack.wanted,
                largest: lack.largest,
            })),
            _ => unreachable!(),
        }
    }

    /// A superblock for a pool, and its first object. If the pool's holder has ended, the superblock goes back.
    fn object_of_new_run(
        &self,
        r: &Region,
        pass: &mut AreaPass,
        class: u8,
        lives: Lives,
    ) -> Result<Result<Chunk, NoSpace>, HolderEnded> {
        let run = match self.run_while(r, pass, SUPERBLOCK_PAGES, true, lives)? {
            Ok(run) => run,
            Err(lack) => return Ok(Err(lack)),
        };
        match at_pool(self, r, pass, class, PoolAsk::AddRun(run), lives) {
            Ok(PoolAnswer::Given(object)) => Ok(Ok(object)),
            Err(PoolAsk::AddRun(run)) => {
                let _handed_back = at_pages(self, r, pass, PagesAsk::GiveRun(run), lives);
                Err(HolderEnded)
            }
            _ => unreachable!(),
        }
    }

    /// As `free`. If the holder of a lock has ended, the chunk stays live and is nobody's.
    pub fn free_while(
        &self,
        r: &Region,
        pass: &mut AreaPass,
        chunk: Chunk,
        lives: Lives,
    ) -> Result<Result<(), Stranger>, HolderEnded> {
        if chunk.bytes > LARGEST_SIZE {
            return self.free_pages_while(r, pass, chunk, lives);
        }
        let Some(class) = class_with(chunk.bytes) else {
            return Ok(Err(Stranger { chunk }));
        };
        match at_pool(self, r, pass, class, PoolAsk::FreeObject(chunk), lives) {
            Ok(PoolAnswer::Freed) => Ok(Ok(())),
            Ok(PoolAnswer::Emptied(run)) => {
                let _handed_back = at_pages(self, r, pass, PagesAsk::GiveRun(run), lives)?;
                Ok(Ok(()))
            }
            Ok(PoolAnswer::NotOurs(chunk)) => Ok(Err(Stranger { chunk })),
            Ok(_) => unreachable!(),
            Err(_) => Err(HolderEnded),
        }
    }

    fn free_pages_while(
        &self,
        r: &Region,
        pass: &mut AreaPass,
        chunk: Chunk,
        lives: Lives,
    ) -> Result<Result<(), Stranger>, HolderEnded> {
        if chunk.bytes % PAGE_BYTES != 0 {
            return Ok(Err(Stranger { chunk }));
        }
        let run = Run {
            at: RelPtr::of(chunk.at.word()),
            pages: (chunk.bytes / PAGE_BYTES) as u32,
            words: chunk.part,
            control: None,
        };
        match at_pages(self, r, pass, PagesAsk::GiveRun(run), lives)? {
            PagesAnswer::Returned => Ok(Ok(())),
            PagesAnswer::Back(run) => Ok(Err(Stranger {
                chunk: Chunk {
                    at: run.at,
                    bytes: chunk.bytes,
                    part: run.words,
                },
            })),
            _ => unreachable!(),
        }
    }
}

impl AreaPass {
    /// The pass of this number, which nobody else has.
    pub fn taken(number: u32) -> AreaPass {
        AreaPass {
            pages: Pass::taken(number),
            pools: Pass::taken(number),
        }
    }
}
