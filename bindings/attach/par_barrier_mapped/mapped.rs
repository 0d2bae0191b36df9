//! A barrier that lies in a mapping. Not proved.
use crate::barrier::{Barrier, BarrierPass};
use crate::history::{BarrierCall, BarrierReply};
use crate::parties::{Ask, MOST_PARTIES, Parties};
use atomic_table::{Mapping, Site};
use lock_book::{Pass, Shelf};
use std::sync::Arc;

impl Barrier {
    /// The most callers of a barrier that lies in a mapping.
    pub const MOST_CALLERS: u32 = MOST_PARTIES as u32;

    /// Where it lies.
    pub fn site(&self) -> Site {
        self.shelf.site()
    }

    /// Whether a mapping of so many words has all of it there.
    pub fn fits(site: Site, words: u64) -> bool {
        Shelf::<Parties>::fits(site, 1, words)
    }

    /// The bytes of the value in its slot, and their alignment.
    pub fn slot_layout() -> [u64; 2] {
        Shelf::<Parties>::slot_layout()
    }

    /// The barrier at a site.
    ///
    /// # Safety
    ///
    /// As `atomic_table::Table::attach`.
    pub unsafe fn attach_at(mapping: &Arc<Mapping>, site: Site, callers: u32) -> Barrier {
        Barrier {
            // SAFETY: as the caller says.
            shelf: unsafe { Shelf::attach(mapping, site, callers) },
        }
    }

    /// Whether the pass of this number has the lock.
    pub fn is_held_by(&self, number: u32) -> bool {
        self.shelf.is_held_by(number)
    }

    /// A call of the barrier; None if the pass that has the lock does not live any more.
    pub fn call_while(&self, pass: &mut BarrierPass, call: BarrierCall, lives: &dyn Fn(u32) -> bool) -> Option<BarrierReply> {
        let by = pass.pass.number();
        self.shelf.call_while(&(), &mut pass.pass, 0, Ask { by, call }, lives).ok()
    }
}

impl BarrierPass {
    /// The pass of this number, which nobody else has.
    pub fn taken(number: u32) -> BarrierPass {
        BarrierPass { pass: Pass::taken(number) }
    }
}
