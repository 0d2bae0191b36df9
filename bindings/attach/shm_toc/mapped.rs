//! A frozen table in a mapping. Not proved.
use crate::FrozenToc;
use region_words::{Frozen, Region};

impl FrozenToc {
    /// The frozen table in the first words of a region, if they begin with this magic number.
    pub fn taken(r: &Region, magic: u64) -> Option<FrozenToc> {
        FrozenToc::attach(Frozen::taken(), r, magic).ok()
    }
}
