//! The ends of a queue of messages from one process to another: how one is taken, wakes the other and waits for it. What is sent
//! and received by them is in `crate::queue`.

use crate::limit::{Limit, Over};
use crate::link::{Damage, Link};
use crate::processes::directory::Object;
use crate::processes::region::{FREE, Handle, LOST, Region, SPENT, TakeError, claim_of, has_ended};
use crate::shared::{HEAD, reserved};
use crate::{Rx, Tx};
use atomic_table::{sleep_on, wake};
use mq_handle::{Receiver, Sender};
use mq_ring::{RingRx, RingTx};
use std::fmt;
use std::sync::Arc;
use std::sync::atomic::Ordering::SeqCst;
use std::time::Duration;

pub(crate) const SENDER: u32 = 0;
pub(crate) const RECEIVER: u32 = 1;

/// How often a call is tried again before the process sleeps.
const TRIES: u32 = 256;

/// How long it sleeps before it looks whether the other side lives.
const NAP: Duration = Duration::from_millis(50);

/// The flag of a ring, counted from its first word.
const FLAG: u64 = 2;

/// The word of advice of an end that is about to sleep, and of one that is not.
const ASLEEP: u64 = 1;
const AWAKE: u64 = 0;

/// What both ends have.
pub(crate) struct End {
    handle: Handle,
    base: u64,
    ring_words: u64,
    max_bytes: u32,
}

impl fmt::Debug for End {
    fn fmt(&self, f: &mut fmt::Formatter<'_>) -> fmt::Result {
        f.debug_struct("End").field("key", &self.handle.entry.key).finish_non_exhaustive()
    }
}

impl End {
    fn take(region: &Region, key: u64, number: u32) -> Result<End, TakeError> {
        let entry = region.map.directory.find(key).ok_or(TakeError::NoKey)?;
        let Object::Queue {
            base,
            ring_words,
            max_bytes,
        } = entry.object
        else {
            return Err(TakeError::NoKey);
        };
        Ok(End {
            handle: Handle::take(&region.map, entry, number)?,
            base,
            ring_words,
            max_bytes,
        })
    }

    /// Makes a call with the region's words.
    #[inline]
    pub(crate) fn call<R>(&self, call: impl FnOnce(&region_words::Region) -> R) -> Result<R, Damage> {
        let map = &self.handle.map;
        map.guard(|| call(&map.region))
    }

    /// Wakes the other side if it may sleep.
    pub(crate) fn wake_peer(&self) {
        let word = self.handle.advice(1 - self.handle.number);
        if word.load(SeqCst) != AWAKE {
            word.store(AWAKE, SeqCst);
            wake(word, 1);
        }
    }

    /// Says that this side is about to sleep. A try has to follow before it does.
    fn says_asleep(&self) {
        self.handle.advice(self.handle.number).store(ASLEEP, SeqCst);
    }

    fn says_awake(&self) {
        self.handle.advice(self.handle.number).store(AWAKE, SeqCst);
    }

    /// Sleeps until the other side wakes this one, no longer than a nap; and looks whether it lives. Or the wait is over.
    fn nap(&self, limit: &mut Limit<'_>) -> Result<(), Over> {
        let time = limit.next_sleep()?.map_or(NAP, |time| time.min(NAP));
        sleep_on(self.handle.advice(self.handle.number), ASLEEP as u32, time);
        self.look_at_peer();
        Ok(())
    }

    /// If the process of the other side has ended, detaches it.
    pub(crate) fn look_at_peer(&self) {
        let peer = 1 - self.handle.number;
        let claim = self.handle.claim(peer);
        let found = claim.load(SeqCst);
        if found == LOST || has_ended(&self.handle.map, found) {
            detach_lost(&self.handle.map, &self.handle.entry, peer, found);
        }
    }

    /// Whether the process of the other side ended before it left.
    pub(crate) fn peer_is_lost(&self) -> bool {
        self.handle.claim(1 - self.handle.number).load(SeqCst) == LOST
    }

    /// What a try comes to, which is made again and again; asleep in between after the first ones.
    pub(crate) fn wait<T>(&self, limit: &mut Limit<'_>, mut attempt: impl FnMut() -> Option<T>) -> Option<T> {
        let found = loop {
            let found = self.tries(&mut attempt);
            if found.is_some() || self.nap(limit).is_err() {
                break found;
            }
        };
        self.says_awake();
        found
    }

    /// Tries for a moment, and once more after it said that it is about to sleep.
    fn tries<T>(&self, attempt: &mut impl FnMut() -> Option<T>) -> Option<T> {
        for _ in 0..TRIES {
            let found = attempt();
            if found.is_some() {
                return found;
            }
            std::hint::spin_loop();
        }
        self.says_asleep();
        attempt()
    }

    /// Detaches the end by a call, and gives it up for good. A child of the process that took it does nothing.
    pub(crate) fn leave(&self, detach: impl FnOnce(&region_words::Region)) {
        if self.handle.map.is_ours() {
            let _damaged = self.call(detach);
            self.handle.give(SPENT);
            self.wake_peer();
        }
    }

    /// Gives the end back as it was taken.
    fn give_back(&self) {
        self.handle.give(FREE);
    }
}

/// Detaches an end for its process, which has ended: it sets the flag of the ring, as that end would have. The process that finds the
/// claim lost does it again, since the one that marked it may have ended in between.
pub(crate) fn detach_lost(map: &crate::processes::map::Map, entry: &crate::processes::directory::Entry, number: u32, found: u64) {
    let claim = claim_of(map, entry, number);
    if found != LOST && claim.compare_exchange(found, LOST, SeqCst, SeqCst).is_err() {
        return;
    }
    if let Object::Queue { base, .. } = entry.object {
        map.region.word(base + FLAG).store(1, SeqCst);
    }
    let peer = map.mapping.word(entry.advice + crate::processes::directory::ADVICE_WORDS * u64::from(1 - number));
    peer.store(AWAKE, SeqCst);
    wake(peer, 1);
}

impl Region {
    /// The sending end of a queue, which is taken once. It takes memory for the greatest message. Its calls are those of one between
    /// threads; a wait returns too if the receiver's process has ended, but waits on as long as nobody has taken that end.
    ///
    /// # Errors
    ///
    /// [`TakeError`] has the causes.
    pub fn sender(&self, key: u64) -> Result<Tx, TakeError> {
        let end = End::take(self, key, SENDER)?;
        let (max, ring_words) = (end.max_bytes, end.ring_words);
        let ring = RingTx::taken(end.base, ring_words, max);
        let link = linked(end)?;
        Tx::over(link.clone(), Sender::taken(ring), max, ring_words).map_err(|_| unused(&link))
    }

    /// The receiving end of a queue, which is taken once. It takes memory for the greatest message. Its calls are those of one
    /// between threads; a wait or a [`crate::select`] returns too if the sender's process has ended, but waits on as long as nobody has
    /// taken that end. `try_receive` does not ask whether the process lives.
    ///
    /// # Errors
    ///
    /// [`TakeError`] has the causes.
    pub fn receiver(&self, key: u64) -> Result<Rx, TakeError> {
        let end = End::take(self, key, RECEIVER)?;
        let ring = RingRx::taken(end.base, end.ring_words, end.max_bytes);
        let link = linked(end)?;
        let receiver = Receiver::taken(ring).map_err(|_| unused(&link))?;
        Ok(Rx::over(link, receiver))
    }
}

/// An end that was just taken, as its handle has it; if there is no memory for it, another process may take it.
fn linked(end: End) -> Result<Link, TakeError> {
    if reserved::<u8>(size_of::<End>() + HEAD).is_err() {
        end.give_back();
        return Err(TakeError::Memory);
    }
    Ok(Link::Processes(Arc::new(end)))
}

/// An end for which there is no memory: another process may take it.
fn unused(link: &Link) -> TakeError {
    if let Link::Processes(end) = link {
        end.give_back();
    }
    TakeError::Memory
}
