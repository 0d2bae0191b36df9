//! The callers of a barrier of processes. Its calls are said in `crate::barrier`.

use crate::processes::directory::{Entry, Object};
use crate::{Arrival, Barrier, BarrierError};
use crate::limit::Limit;
use crate::link::Damage;
use crate::processes::map::Map;
use crate::processes::region::{DETACHING, Handle, LOST, Region, SPENT, TakeError, claim_of, has_ended, lives};
use atomic_table::{sleep_on, wake};
use par_barrier_mapped::{BarrierCall, BarrierPass, BarrierReply};
use std::sync::Arc;
use std::sync::atomic::Ordering::SeqCst;
use std::time::Duration;

/// How long a process sleeps before it looks whether the others live.
const NAP: Duration = Duration::from_millis(50);

impl From<Damage> for BarrierError {
    fn from(_: Damage) -> BarrierError {
        BarrierError::Damaged
    }
}

/// One caller. If it is dropped, the caller takes part no more.
pub(crate) struct Party {
    handle: Handle,
    barrier: par_barrier_mapped::Barrier,
    pass: BarrierPass,
}

pub(crate) fn attached(map: &Map, entry: &Entry) -> Option<par_barrier_mapped::Barrier> {
    let Object::Barrier(site) = entry.object else { return None };
    // SAFETY: the directory says that it is there, and was looked at; the layouts agree, by the head's sum; the value has no
    // pointer.
    Some(unsafe { par_barrier_mapped::Barrier::attach_at(&map.mapping, site, entry.handles) })
}

/// Wakes all who wait: the word of advice counts the calls that may have ended a phase.
fn wake_all(map: &Map, entry: &Entry) {
    let word = map.mapping.word(entry.advice);
    word.fetch_add(1, SeqCst);
    wake(word, u32::MAX);
}

/// Detaches a caller for its process, which has ended; false if that had the barrier's lock. `found` is its claim. The claim is
/// marked meanwhile with the process that detaches, so that another one can go on if that ends too: to detach twice does
/// nothing.
pub(crate) fn detach_lost(map: &Map, entry: &Entry, number: u32, found: u64) -> bool {
    let Some(barrier) = attached(map, entry) else { return true };
    let claim = claim_of(map, entry, number);
    if barrier.is_held_by(number) {
        // If the claim has changed, another process may have the lock under this number, to detach it. Or that one has marked the
        // claim as lost, and the next call is answered so.
        return claim.compare_exchange(found, LOST, SeqCst, SeqCst).is_err();
    }
    if claim.compare_exchange(found, DETACHING | map.me.number(), SeqCst, SeqCst).is_err() {
        return true;
    }
    let mut pass = BarrierPass::taken(number);
    let detached = map.guard(|| barrier.call_while(&mut pass, BarrierCall::Detach, &|n| lives(map, entry, n)));
    claim.store(LOST, SeqCst);
    wake_all(map, entry);
    matches!(detached, Ok(Some(_)))
}

impl Region {
    /// A handle of a barrier, whose caller takes part until it is dropped. A place at a barrier is taken once. The calls are those of a
    /// barrier of threads; a wait detaches callers whose processes have ended, and waits for a caller that nobody has taken yet.
    ///
    /// # Errors
    ///
    /// [`TakeError`] has the causes.
    pub fn barrier(&self, key: u64) -> Result<Barrier, TakeError> {
        let entry = self.map.directory.find(key).ok_or(TakeError::NoKey)?;
        Party::take(&self.map, entry).map(Barrier::of_processes)
    }
}

impl Party {
    fn take(map: &Arc<Map>, entry: &Arc<Entry>) -> Result<Party, TakeError> {
        let barrier = attached(map, entry).ok_or(TakeError::NoKey)?;
        let handle = Handle::take_any(map, entry)?;
        let pass = BarrierPass::taken(handle.number);
        Ok(Party { handle, barrier, pass })
    }

    /// Another caller that nobody has taken yet.
    pub(crate) fn another(&self) -> Option<Party> {
        Party::take(&self.handle.map, &self.handle.entry).ok()
    }

    /// The caller's number.
    pub(crate) fn number(&self) -> u32 {
        self.handle.number
    }

    fn call(&mut self, call: BarrierCall) -> Result<BarrierReply, BarrierError> {
        let Party { handle, barrier, pass } = self;
        let map = Arc::clone(&handle.map);
        let reply = map.guard(|| barrier.call_while(pass, call, &|n| handle.lives(n)))?;
        reply.ok_or(BarrierError::OwnerDied)
    }

    fn ends_phase(&mut self, call: BarrierCall) -> Result<Option<Arrival>, BarrierError> {
        match self.call(call)? {
            BarrierReply::Waiting => Ok(None),
            BarrierReply::Released(phase, is_elected) => Ok(Some(Arrival { phase, is_elected })),
            other => Err(refused(other)),
        }
    }

    /// Takes part again.
    pub(crate) fn attach(&mut self) -> Result<u64, BarrierError> {
        match self.call(BarrierCall::Attach)? {
            BarrierReply::Attached(phase) => Ok(phase),
            other => Err(refused(other)),
        }
    }

    /// Takes part no more; whether nobody is left.
    pub(crate) fn detach(&mut self) -> Result<bool, BarrierError> {
        let reply = self.call(BarrierCall::Detach)?;
        wake_all(&self.handle.map, &self.handle.entry);
        match reply {
            BarrierReply::Left(_, is_last) => Ok(is_last),
            other => Err(refused(other)),
        }
    }

    /// Arrives; the end of the phase if this ended it.
    pub(crate) fn arrive(&mut self) -> Result<Option<Arrival>, BarrierError> {
        let arrived = self.ends_phase(BarrierCall::Arrive)?;
        if arrived.is_some() {
            wake_all(&self.handle.map, &self.handle.entry);
        }
        Ok(arrived)
    }

    /// Whether the phase in which the caller arrived has ended.
    pub(crate) fn look(&mut self) -> Result<Option<Arrival>, BarrierError> {
        self.ends_phase(BarrierCall::Look)
    }

    /// Sleeps until the phase in which the caller arrived has ended, or the limit is reached. Callers whose processes end meanwhile are
    /// detached.
    pub(crate) fn sleep(&mut self, limit: &mut Limit<'_>) -> Result<Option<Arrival>, BarrierError> {
        loop {
            let turn = self.handle.advice(0).load(SeqCst);
            let arrival = self.look()?;
            if arrival.is_some() {
                return Ok(arrival);
            }
            let Ok(time) = limit.next_sleep() else { return Ok(None) };
            sleep_on(self.handle.advice(0), turn as u32, time.map_or(NAP, |time| time.min(NAP)));
            self.detach_ended()?;
        }
    }

    /// Detaches those whose processes have ended.
    fn detach_ended(&self) -> Result<(), BarrierError> {
        let (map, entry) = (&self.handle.map, &self.handle.entry);
        for number in 0..entry.handles {
            let found = claim_of(map, entry, number).load(SeqCst);
            if has_ended(map, found) && !detach_lost(map, entry, number, found) {
                return Err(BarrierError::OwnerDied);
            }
        }
        Ok(())
    }
}

/// Why a call changed nothing, by its reply.
fn refused(reply: BarrierReply) -> BarrierError {
    match reply {
        BarrierReply::Twice(_) => BarrierError::Twice,
        BarrierReply::AlreadyIn(_) => BarrierError::AlreadyIn,
        _ => BarrierError::NotIn,
    }
}

impl Drop for Party {
    fn drop(&mut self) {
        if self.handle.map.is_ours() {
            let _gone = self.detach();
            self.handle.give(SPENT);
            wake_all(&self.handle.map, &self.handle.entry);
        }
    }
}
