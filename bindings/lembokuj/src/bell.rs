//! How the end of a queue sleeps until the other end has done something.
//!
//! An end that waits tries some times awake, notes here that it sleeps, tries once more, and parks. The other end looks here after
//! each of its calls. The counts of a ring and the flag here are sequentially consistent: so either that look finds that somebody
//! sleeps, or the last try saw what the call did, and no ring of the bell is missed.

use crate::limit::{Limit, Over};
use crate::shared::shared;
use rattle_std::alloc::AllocError;
use std::hint::spin_loop;
use std::sync::atomic::AtomicBool;
use std::sync::atomic::Ordering::SeqCst;
use std::sync::{Arc, Condvar, Mutex, PoisonError};
#[cfg(feature = "async")]
use std::task::Waker;
use std::thread;
use std::time::{Duration, Instant};

/// How many tries are made awake before the first sleep: those that spin, each twice as long as the one before, and then those that
/// yield the processor.
const SPINS: u32 = 7;
const YIELDS: u32 = 24;

/// How long the yielding tries go on at most. On a busy machine a single yield may take many milliseconds, and a wait with a time would
/// end long after it.
const YIELDING: Duration = Duration::from_micros(100);

/// What a thread parks at. Each end of a queue has one, made with the queue: so a wait takes no memory, and a wake-up that comes
/// late disturbs nobody else's parking.
#[derive(Default)]
pub(crate) struct Parker {
    is_rung: Mutex<bool>,
    rung: Condvar,
}

impl Parker {
    /// Sleeps until it was rung since the last time, or the time is over.
    fn park(&self, time: Option<Duration>) {
        let is_rung = self.is_rung.lock().unwrap_or_else(PoisonError::into_inner);
        let mut is_rung = match time {
            None => self.rung.wait_while(is_rung, |is_rung| !*is_rung).unwrap_or_else(PoisonError::into_inner),
            Some(time) => {
                let woken = self.rung.wait_timeout_while(is_rung, time, |is_rung| !*is_rung);
                woken.unwrap_or_else(PoisonError::into_inner).0
            }
        };
        *is_rung = false;
    }

    fn unpark(&self) {
        *self.is_rung.lock().unwrap_or_else(PoisonError::into_inner) = true;
        self.rung.notify_one();
    }
}

/// Whom to wake.
enum Sleeper {
    Thread(Arc<Parker>),
    #[cfg(feature = "async")]
    Task(Waker),
}

/// What one end sleeps at. It has its own cache lines, since the other end reads it at each call.
#[repr(align(128))]
pub(crate) struct Bell {
    sleeps: AtomicBool,
    sleeper: Mutex<Option<Sleeper>>,
    /// What the thread parks at that waits for this bell only, or for several of which this is the first.
    parker: Arc<Parker>,
}

impl std::fmt::Debug for Bell {
    fn fmt(&self, f: &mut std::fmt::Formatter<'_>) -> std::fmt::Result {
        f.write_str("Bell")
    }
}

impl Bell {
    /// Nobody sleeps here yet.
    pub(crate) fn new() -> Result<Bell, AllocError> {
        Ok(Bell {
            sleeps: AtomicBool::new(false),
            sleeper: Mutex::new(None),
            parker: shared(Parker::default())?,
        })
    }

    /// What the thread parks at that waits here.
    pub(crate) fn parker(&self) -> &Arc<Parker> {
        &self.parker
    }

    /// Wakes the end that sleeps here, if one does. One load if none does.
    #[inline]
    pub(crate) fn ring(&self) {
        if self.sleeps.load(SeqCst) {
            self.wake();
        }
    }

    #[cold]
    fn wake(&self) {
        #[cfg_attr(not(feature = "async"), expect(unused_mut, reason = "only a task is taken out"))]
        let mut sleeper = self.sleeper.lock().unwrap_or_else(PoisonError::into_inner);
        match &*sleeper {
            Some(Sleeper::Thread(parker)) => parker.unpark(),
            // A task attaches itself anew at its next poll.
            #[cfg(feature = "async")]
            Some(Sleeper::Task(_)) => {
                self.sleeps.store(false, SeqCst);
                if let Some(Sleeper::Task(waker)) = sleeper.take() {
                    drop(sleeper);
                    waker.wake();
                }
            }
            None => {}
        }
    }

    /// From now on each ring wakes this thread; a try has to follow before it sleeps.
    pub(crate) fn attach_thread(&self, parker: &Arc<Parker>) {
        self.attach(Sleeper::Thread(Arc::clone(parker)));
    }

    /// The next ring wakes this task; a try has to follow before it is pending.
    #[cfg(feature = "async")]
    pub(crate) fn attach_task(&self, waker: &Waker) {
        self.attach(Sleeper::Task(waker.clone()));
    }

    fn attach(&self, sleeper: Sleeper) {
        let mut place = self.sleeper.lock().unwrap_or_else(PoisonError::into_inner);
        *place = Some(sleeper);
        self.sleeps.store(true, SeqCst);
    }

    /// Nobody sleeps here any more.
    pub(crate) fn detach(&self) {
        let mut place = self.sleeper.lock().unwrap_or_else(PoisonError::into_inner);
        *place = None;
        self.sleeps.store(false, SeqCst);
    }

    /// What a try comes to, which is made again after each ring until it comes to something, or the limit is reached.
    pub(crate) fn wait<T>(&self, limit: &mut Limit<'_>, mut attempt: impl FnMut() -> Option<T>) -> Option<T> {
        if let Some(done) = awake(&mut attempt) {
            return Some(done);
        }
        self.attach_thread(&self.parker);
        let done = asleep(&self.parker, limit, None, &mut attempt);
        self.detach();
        done
    }
}

/// Some tries by a thread that stays awake.
pub(crate) fn awake<T>(attempt: &mut impl FnMut() -> Option<T>) -> Option<T> {
    for round in 0..SPINS {
        if let Some(done) = attempt() {
            return Some(done);
        }
        (0..1 << round).for_each(|_| spin_loop());
    }
    let began = Instant::now();
    for _ in 0..YIELDS {
        if let Some(done) = attempt() {
            return Some(done);
        }
        if began.elapsed() >= YIELDING {
            break;
        }
        thread::yield_now();
    }
    None
}

/// Tries by a thread that sleeps in between, no longer than a nap if there is one: its parker is attached to the bells that ring for
/// something new.
pub(crate) fn asleep<T>(
    parker: &Parker,
    limit: &mut Limit<'_>,
    nap: Option<Duration>,
    attempt: &mut impl FnMut() -> Option<T>,
) -> Option<T> {
    loop {
        if let Some(done) = attempt() {
            return Some(done);
        }
        match limit.next_sleep() {
            Ok(time) => parker.park(time.into_iter().chain(nap).min()),
            // The other end may have come meanwhile.
            Err(Over) => return attempt(),
        }
    }
}

#[cfg(test)]
mod tests {
    use super::*;

    #[test]
    fn a_wait_stays_awake_for_a_short_time_only() {
        let mut tries = 0;
        let found: Option<()> = awake(&mut || {
            tries += 1;
            thread::sleep(YIELDING);
            None
        });
        assert!(found.is_none() && tries == SPINS + 1, "{tries} tries");
    }
}
