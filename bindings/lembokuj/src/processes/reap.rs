//! What ended processes had is given to others, as far as no lock was in their hands.

use crate::processes::directory::{Entry, Object};
use crate::processes::map::Map;
use crate::processes::region::{FREE, LOST, Region, SPENT, TakeError, claim_of, has_ended};
use crate::processes::sys::Process;
use crate::processes::{area, barrier, queue, table};
use std::sync::atomic::Ordering::SeqCst;

/// What was found of processes that have ended.
#[derive(Clone, Copy, Debug, Default, PartialEq, Eq)]
pub struct Reaped {
    /// Handles of tables and areas that may be taken again.
    pub freed: u64,
    /// Ends of queues and callers of barriers that were detached.
    pub detached: u64,
    /// Handles that are lost for good, since their process ended with one of the object's locks: what that guards is lost too. Of
    /// a barrier that is lost, all whose processes have ended.
    pub lost: u64,
    /// Chunks of areas that were given back.
    pub chunks: u64,
}

impl Region {
    /// Looks for what processes had that have ended. Their handles of tables and areas may be taken again, ends of queues and
    /// callers of barriers are detached, and their chunks go back to their area, unless a lock of its is lost or all of its handles
    /// are taken. A caller that waits for such a process notices by itself; this is for a supervisor, or for a process that wants
    /// another handle or more space. It costs a question to the system for each handle that is taken and each process that
    /// has chunks, and it reads a word for each word of an area. A chunk that was posted and not fetched is nobody's, and stays; so does one that
    /// the dead were asking for or giving back.
    #[expect(clippy::must_use_candidate, reason = "a supervisor calls it for what it does")]
    pub fn reap(&self) -> Reaped {
        let mut reaped = Reaped::default();
        for entry in &self.map.directory.entries {
            for number in 0..entry.handles {
                let found = claim_of(&self.map, entry, number).load(SeqCst);
                if has_ended(&self.map, found) {
                    reap_one(&self.map, entry, number, found, &mut reaped);
                }
            }
            reaped.chunks += area::sweep(&self.map, entry).unwrap_or(0);
        }
        reaped
    }
}

impl Region {
    /// The ids of the processes that have a lock of the object under a key at this moment, each once: for a supervisor that wants
    /// to know who hinders others, or whose end would lose something. It stops nobody.
    ///
    /// # Errors
    ///
    /// [`TakeError::NoKey`].
    pub fn lock_holders(&self, key: u64) -> Result<Vec<u32>, TakeError> {
        let entry = self.map.directory.find(key).ok_or(TakeError::NoKey)?;
        let has_lock = locks_of(&self.map, entry);
        let claims = (0..entry.handles).filter(|number| has_lock(*number)).map(|number| claim_of(&self.map, entry, number).load(SeqCst));
        let mut ids: Vec<u32> = claims.filter(|claim| !matches!(*claim, FREE | SPENT | LOST)).map(|claim| Process::of(claim).process_id()).collect();
        ids.dedup();
        Ok(ids)
    }
}

/// Whether the pass of a number has a lock of an object.
fn locks_of(map: &Map, entry: &Entry) -> Box<dyn Fn(u32) -> bool> {
    let (object, callers) = (&entry.object, entry.handles);
    if let Some((table, area)) = table::attached(map, object, callers) {
        return Box::new(move |number| table.is_held_by(number) || area.is_held_by(number));
    }
    if let Some(area) = area::attached(map, object, callers) {
        return Box::new(move |number| area.is_held_by(number));
    }
    if let Some(barrier) = barrier::attached(map, entry) {
        return Box::new(move |number| barrier.is_held_by(number));
    }
    Box::new(|_| false)
}

fn reap_one(map: &Map, entry: &Entry, number: u32, found: u64, reaped: &mut Reaped) {
    let has_lock = match entry.object {
        Object::Queue { .. } => {
            queue::detach_lost(map, entry, number, found);
            reaped.detached += 1;
            return;
        }
        Object::Barrier(_) => {
            if barrier::detach_lost(map, entry, number, found) {
                reaped.detached += 1;
            } else {
                reaped.lost += 1;
            }
            return;
        }
        Object::Area(_) | Object::Table(..) => locks_of(map, entry)(number),
        Object::Words { .. } => return,
    };
    let claim = if has_lock { LOST } else { FREE };
    if claim_of(map, entry, number).compare_exchange(found, claim, SeqCst, SeqCst).is_ok() {
        if has_lock {
            reaped.lost += 1;
        } else {
            reaped.freed += 1;
        }
    }
}
