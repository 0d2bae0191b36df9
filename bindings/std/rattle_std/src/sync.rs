//! Waiting, and the atomics of Rust's std.

use std::ops::Range;

pub use std::sync::{Arc, Condvar, Mutex, OnceLock, RwLock, atomic};

/// The leave to wait. A function with such a handle owes no return: it may block, or go round for ever.
pub trait Wait {
    /// A loop with no end. Its numbers are no count: at one step a nanosecond they last 584 years.
    fn forever(&self) -> Range<u64> {
        0..u64::MAX
    }
}

impl<W: Wait> Wait for &W {}
