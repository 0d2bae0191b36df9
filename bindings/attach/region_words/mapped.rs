//! A region that lies in a mapping, as each process has it. Not proved.
use super::{Place, Region};
use crate::Frozen;
use atomic_table::{Badge, Mapping, Site, Table};
use std::sync::Arc;
use std::sync::atomic::AtomicU64;

impl Region {
    /// Where it lies.
    pub fn site(&self) -> Site {
        self.shared().site()
    }

    /// A word, whoever owns it.
    pub fn word(&self, at: u64) -> &AtomicU64 {
        self.shared().word(at as usize)
    }

    /// The region at a site.
    ///
    /// # Safety
    ///
    /// As `atomic_table::Table::attach`.
    pub unsafe fn attach(mapping: &Arc<Mapping>, site: Site) -> Region {
        // SAFETY: as the caller says.
        let table = unsafe { Table::attach(mapping, site) };
        Region {
            place: Place::Own(table),
        }
    }
}

impl Frozen {
    /// A token of words that are frozen.
    pub fn taken() -> Frozen {
        Frozen {
            seat: Badge::blank().into_seat(),
        }
    }
}
