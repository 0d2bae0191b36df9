//! How the values of slots lie. A value of one plain word lies next to its neighbours, as the words of a region do, of which
//! there may be millions. Any other lies on lines of the cache that nothing else has, so that threads at two slots do not take
//! each other's lines: 128 bytes, since some processors fetch lines in pairs.

use std::cell::UnsafeCell;

/// A value that is not one plain word.
#[repr(align(128))]
pub(crate) struct Home<S> {
    pub(crate) slot: UnsafeCell<S>,
}

/// Whether a value is one word, with nothing to do when it is dropped.
pub(crate) const fn is_word<S>() -> bool {
    size_of::<S>() == size_of::<u64>() && align_of::<S>() == align_of::<u64>() && !std::mem::needs_drop::<S>()
}
