//! Stands for the toolchain's `crossbeam_utils`: the backoff of loops that spin.

#![forbid(unsafe_code)]

use std::cell::Cell;
use std::{hint, thread};

const SPIN_LIMIT: u32 = 6;

const YIELD_LIMIT: u32 = 10;

/// Exponential backoff. No statement rests on it: it reads and changes nothing but its own count.
#[derive(Debug, Default)]
pub struct Backoff {
    step: Cell<u32>,
}

fn spin_for(step: u32) {
    for _ in 0..1u32 << step.min(SPIN_LIMIT) {
        hint::spin_loop();
    }
}

impl Backoff {
    pub const fn new() -> Backoff {
        Backoff { step: Cell::new(0) }
    }

    pub fn reset(&self) {
        self.step.set(0);
    }

    /// For a loop that tries again because another thread made progress.
    pub fn spin(&self) {
        let step = self.step.get();
        spin_for(step);
        if step <= SPIN_LIMIT {
            self.step.set(step + 1);
        }
    }

    /// For a loop that waits for another thread to make progress. After some rounds it yields the processor.
    pub fn snooze(&self) {
        let step = self.step.get();
        if step <= SPIN_LIMIT {
            spin_for(step);
        } else {
            thread::yield_now();
        }
        if step <= YIELD_LIMIT {
            self.step.set(step + 1);
        }
    }

    /// True once it is time to block the thread in another way.
    pub fn is_completed(&self) -> bool {
        self.step.get() > YIELD_LIMIT
    }
}
