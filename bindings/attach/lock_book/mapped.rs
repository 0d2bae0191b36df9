//! A shelf that lies in a mapping, as each process has it, and a call that gives up if the holder of the value has ended.
//! Not proved; it takes the steps of `steps` in their order.
use crate::Kept;
use crate::shelf::{Pass, Shelf, give_back, lend};
use crate::steps::{FREE, begin, lock_word, release, serve};
use crate::table::{Advise, Board, Held, Place, Take, WORDS_OF_VALUE};
use atomic_table::{Badge, Mapping, Site, Table, sleep_on};
use crossbeam_utils::Backoff;
use rattle_std::prelude::*;
use std::sync::Arc;
use std::time::Duration;

/// The word of advice while somebody may sleep.
const SOMEBODY: u32 = 1;

/// How long a caller sleeps before it looks whether the holder lives.
const LONGEST_SLEEP: Duration = Duration::from_millis(10);

/// Whether the value was free; it is the seat's then.
fn look_and_take<T: Kept>(board: &Board<T>, seat: &mut Place<T>, number: u32, at: usize) -> bool {
    let (word, name) = (lock_word(at), u64::from(number) + 1);
    board.shared.peek(word) == FREE && board.shared.compare_exchange::<Take>(seat, word, FREE, name) == FREE
}

/// Waits for the value; false if the caller that has it does not live any more.
fn take_while<T: Kept>(
    board: &Board<T>,
    seat: &mut Place<T>,
    number: u32,
    at: usize,
    lives: &dyn Fn(u32) -> bool,
) -> bool {
    let backoff = Backoff::new();
    while !backoff.is_completed() {
        if look_and_take(board, seat, number, at) {
            return true;
        }
        backoff.snooze();
    }
    let advice = at * WORDS_OF_VALUE + 1;
    loop {
        board.shared.store::<Advise>(seat, advice, u64::from(SOMEBODY));
        if look_and_take(board, seat, number, at) {
            return true;
        }
        sleep_on(board.shared.word(advice), SOMEBODY, LONGEST_SLEEP);
        let found = board.shared.peek(lock_word(at));
        let has_ended = || !lives((found - 1) as u32);
        // That it has ended is asked before and after the lock is seen to be this pass's still: it may have given the lock back before it
        // ended, and another caller may have it under the same number by now.
        if found != FREE && has_ended() && board.shared.peek(lock_word(at)) == found && has_ended() {
            return false;
        }
    }
}

impl<T: Kept> Shelf<T> {
    /// Where it lies.
    pub fn site(&self) -> Site {
        self.board.shared.site()
    }

    /// The number of the pass that has the value `at`.
    pub fn holder(&self, at: usize) -> Option<u32> {
        self.board.shared.peek(lock_word(at)).checked_sub(1).map(|number| number as u32)
    }

    /// Whether the pass of this number has a value.
    pub fn is_held_by(&self, number: u32) -> bool {
        (0..self.count).any(|at| self.holder(at) == Some(number))
    }

    /// Whether a mapping of so many words has all of a shelf of `count` values there.
    pub fn fits(site: Site, count: u64, words: u64) -> bool {
        let as_many = site.slot_count == count && site.word_count == count * WORDS_OF_VALUE as u64;
        as_many && site.fits::<Held<T>>(words)
    }

    /// The bytes of a value in its slot, and their alignment.
    pub fn slot_layout() -> [u64; 2] {
        [size_of::<Held<T>>() as u64, align_of::<Held<T>>() as u64]
    }

    /// The shelf at a site.
    ///
    /// # Safety
    ///
    /// As `atomic_table::Table::attach`.
    pub unsafe fn attach(mapping: &Arc<Mapping>, site: Site, callers: u32) -> Shelf<T> {
        Shelf {
            // SAFETY: as the caller says.
            board: unsafe { Table::attach(mapping, site) },
            count: site.slot_count as usize,
            callers,
        }
    }

    /// As `call`, but that it gives the input back if the pass that has the value, by its number, does not live any more.
    /// Nothing has happened then.
    pub fn call_while(
        &self,
        env: &T::Env,
        pass: &mut Pass<T>,
        at: usize,
        input: T::In,
        lives: &dyn Fn(u32) -> bool,
    ) -> Result<T::Out, T::In> {
        let mut seat = lend(&mut pass.badge);
        let answer = if take_while(&self.board, &mut seat, pass.number, at, lives) {
            begin(&self.board, &mut seat, at);
            let output = serve(&self.board, &mut seat, pass.number, at, env, input);
            release(&self.board, &mut seat, at);
            Ok(output)
        } else {
            Err(input)
        };
        give_back(&mut pass.badge, seat);
        answer
    }
}

impl<T: Kept> Pass<T> {
    /// The pass of this number, which nobody else has.
    pub fn taken(number: u32) -> Pass<T> {
        Pass {
            badge: Badge::blank(),
            number,
        }
    }
}
