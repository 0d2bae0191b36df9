//! Rust's clock, read through a handle. A clock of the system may fail; this one does not.

pub use std::time::Duration;
use std::{io, time};

/// The leave to read the clock.
pub trait Clock {}

impl<R: Clock> Clock for &R {}

/// A moment of a clock that never goes back.
#[derive(Clone, Copy, Debug)]
pub struct Instant(time::Instant);

impl Instant {
    /// This moment.
    pub fn now(_clock: &impl Clock) -> io::Result<Instant> {
        Ok(Instant(time::Instant::now()))
    }

    /// The time since an earlier moment, and none since a later one.
    pub fn duration_since(&self, earlier: Instant) -> Duration {
        self.0.duration_since(earlier.0)
    }
}
