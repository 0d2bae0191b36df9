//! A barrier with phases.

use crate::area::MOST_CALLERS;
use crate::bell::awake;
use crate::errors;
use crate::limit::{Limit, Over};
#[cfg(processes)]
use crate::processes::Party;
use crate::shared::{reserved, shared};
use par_barrier::{BarrierAnswer, BarrierPass};
use rattle_std::alloc::Global;
use std::fmt;
use std::sync::atomic::AtomicU32;
use std::sync::atomic::Ordering::SeqCst;
use std::sync::{Arc, Condvar, Mutex, PoisonError};
use std::time::Duration;

/// Why a call of a barrier changed nothing.
#[derive(Clone, Copy, Debug, PartialEq, Eq)]
#[non_exhaustive]
pub enum BarrierError {
    /// No callers, or more than 4,096.
    Callers,
    /// There is no memory.
    Memory,
    /// The caller takes part already.
    AlreadyIn,
    /// The caller does not take part.
    NotIn,
    /// The caller has arrived in this phase already.
    Twice,
    /// Of a barrier of processes: one ended while it had the barrier's lock, and the barrier is lost for all.
    OwnerDied,
    /// Of a barrier of processes: the region is damaged.
    Damaged,
}

errors!(BarrierError {
    Callers => "a barrier has 1 to 4096 callers",
    Memory => "out of memory",
    AlreadyIn => "the caller takes part already",
    NotIn => "the caller does not take part",
    Twice => "the caller has arrived in this phase already",
    OwnerDied => "a process ended while it had the lock",
    Damaged => "the region is damaged",
});

impl From<BarrierAnswer> for BarrierError {
    fn from(answer: BarrierAnswer) -> BarrierError {
        match answer {
            BarrierAnswer::AlreadyIn { .. } => BarrierError::AlreadyIn,
            BarrierAnswer::NotIn { .. } => BarrierError::NotIn,
            BarrierAnswer::Twice { .. } => BarrierError::Twice,
        }
    }
}

/// What a caller is told when the phase has ended in which it arrived.
#[derive(Clone, Copy, Debug, PartialEq, Eq)]
pub struct Arrival {
    /// The phase that is on now; the first is 0.
    pub phase: u64,
    /// Whether this caller was elected: one of those who arrived is, for what has to be done once.
    pub is_elected: bool,
}

/// What all callers share: the barrier, and what callers sleep at that wait for the end of a phase.
struct Shared {
    barrier: par_barrier::Barrier,
    sleepers: AtomicU32,
    door: Mutex<()>,
    ended: Condvar,
    spare: Mutex<Vec<BarrierPass>>,
}

impl Shared {
    /// Wakes those that sleep, after a call that may have ended a phase. A sleeper counts itself and then looks once more, so either
    /// that look sees what the call did, or the count is seen here.
    fn wake(&self) {
        if self.sleepers.load(SeqCst) > 0 {
            drop(self.door.lock().unwrap_or_else(PoisonError::into_inner));
            self.ended.notify_all();
        }
    }

    /// What a look comes to, which is made again at each end of a phase, up to the limit.
    fn sleep<T>(&self, limit: &mut Limit<'_>, mut look: impl FnMut() -> Option<T>) -> Option<T> {
        self.sleepers.fetch_add(1, SeqCst);
        let mut door = self.door.lock().unwrap_or_else(PoisonError::into_inner);
        let found = loop {
            if let Some(found) = look() {
                break Some(found);
            }
            // A caller's function is asked with the door unlocked: others come and go meanwhile.
            drop(door);
            let next = limit.next_sleep();
            door = self.door.lock().unwrap_or_else(PoisonError::into_inner);
            if let Some(found) = look() {
                break Some(found);
            }
            door = match next {
                Ok(None) => self.ended.wait(door).unwrap_or_else(PoisonError::into_inner),
                Ok(Some(time)) => self.ended.wait_timeout(door, time).unwrap_or_else(PoisonError::into_inner).0,
                Err(Over) => break None,
            };
        };
        drop(door);
        self.sleepers.fetch_sub(1, SeqCst);
        found
    }
}

/// A handle of a barrier. Its callers arrive, and the phase ends when all who take part have. If a handle is dropped,
/// its caller takes part no more, so that nobody waits for it.
///
/// ```
/// use lembokuj::Barrier;
///
/// let workers: Vec<_> = Barrier::new(4)?
///     .into_iter()
///     .map(|mut barrier| std::thread::spawn(move || (0..100).filter(|_| barrier.wait().unwrap().is_elected).count()))
///     .collect();
/// let elected: usize = workers.into_iter().map(|worker| worker.join().unwrap()).sum();
/// assert_eq!(elected, 100);
/// # Ok::<(), lembokuj::BarrierError>(())
/// ```
pub struct Barrier {
    at: At,
}

/// The place of a barrier.
enum At {
    /// In memory of this process.
    Threads(Caller),
    /// In a mapping.
    #[cfg(processes)]
    Processes(Party),
}

/// A caller of a barrier in memory of this process.
struct Caller {
    shared: Arc<Shared>,
    /// Some up to the drop.
    pass: Option<BarrierPass>,
}

impl fmt::Debug for Barrier {
    fn fmt(&self, f: &mut fmt::Formatter<'_>) -> fmt::Result {
        let number = match &self.at {
            At::Threads(caller) => caller.pass.as_ref().map(BarrierPass::number),
            #[cfg(processes)]
            At::Processes(party) => Some(party.number()),
        };
        write!(f, "Barrier {{ caller: {number:?} }}")
    }
}

/// Makes a call of the caller, wherever the barrier is.
macro_rules! at {
    ($barrier:expr, $caller:ident => $call:expr) => {
        match $barrier {
            At::Threads($caller) => $call,
            #[cfg(processes)]
            At::Processes($caller) => $call,
        }
    };
}

impl Barrier {
    /// A barrier in phase 0, and a handle for each of its callers, all of whom take part from the start. It takes a few
    /// words of memory for each; no other call takes any.
    ///
    /// # Errors
    ///
    /// [`BarrierError::Callers`], [`BarrierError::Memory`].
    pub fn new(callers: u32) -> Result<Vec<Barrier>, BarrierError> {
        let first = Barrier::open(callers)?;
        let mut handles = reserved(callers as usize).map_err(|_| BarrierError::Memory)?;
        while let Some(handle) = first.handle() {
            handles.push(handle);
        }
        handles.push(first);
        Ok(handles)
    }

    /// The same with one handle, whose caller takes part; [`Barrier::handle`] makes the others, up to `callers` at a time.
    ///
    /// # Errors
    ///
    /// As [`Barrier::new`].
    pub fn open(callers: u32) -> Result<Barrier, BarrierError> {
        if !(1..=MOST_CALLERS).contains(&callers) {
            return Err(BarrierError::Callers);
        }
        let (barrier, passes) = par_barrier::Barrier::new(Global, callers).map_err(|_| BarrierError::Memory)?;
        let mut spare = passes.into_std();
        let pass = spare.pop();
        let common = Shared {
            barrier,
            sleepers: AtomicU32::new(0),
            door: Mutex::new(()),
            ended: Condvar::new(),
            spare: Mutex::new(spare),
        };
        let shared = shared(common).map_err(|_| BarrierError::Memory)?;
        let mut first = Caller { shared, pass };
        first.attach()?;
        Ok(Barrier { at: At::Threads(first) })
    }

    /// The handle of a caller of processes.
    #[cfg(processes)]
    pub(crate) fn of_processes(party: Party) -> Barrier {
        Barrier { at: At::Processes(party) }
    }

    /// One more handle, whose caller takes part from the phase that is on; None if all that the barrier was made for are out. A
    /// handle that is dropped makes room for another; of a barrier of processes it does not.
    #[must_use]
    pub fn handle(&self) -> Option<Barrier> {
        let at = match &self.at {
            At::Threads(caller) => At::Threads(caller.another()?),
            #[cfg(processes)]
            At::Processes(party) => At::Processes(party.another()?),
        };
        Some(Barrier { at })
    }

    /// The caller takes part again. The phase that is on.
    ///
    /// # Errors
    ///
    /// [`BarrierError::AlreadyIn`].
    pub fn attach(&mut self) -> Result<u64, BarrierError> {
        at!(&mut self.at, caller => caller.attach())
    }

    /// Arrives, and waits until all who take part have: awake for some microseconds, and then asleep. It waits forever if one of
    /// them neither arrives nor detaches.
    ///
    /// # Errors
    ///
    /// [`BarrierError::NotIn`], [`BarrierError::Twice`] if the caller has arrived in this phase already.
    pub fn wait(&mut self) -> Result<Arrival, BarrierError> {
        loop {
            if let Some(arrival) = self.wait_by(&mut Limit::Forever)? {
                return Ok(arrival);
            }
        }
    }

    /// As [`Barrier::wait`], but waits no longer than this time: None then. The caller has arrived all the same, and learns of
    /// the end of the phase by [`Barrier::look`].
    ///
    /// # Errors
    ///
    /// As [`Barrier::wait`].
    pub fn wait_timeout(&mut self, time: Duration) -> Result<Option<Arrival>, BarrierError> {
        self.wait_by(&mut Limit::after(time))
    }

    /// As [`Barrier::wait`], but waits only while the function says so, which is asked when the wait begins to sleep and then about
    /// every 10 ms. None as by [`Barrier::wait_timeout`].
    ///
    /// # Errors
    ///
    /// As [`Barrier::wait`].
    pub fn wait_while(&mut self, mut go_on: impl FnMut() -> bool) -> Result<Option<Arrival>, BarrierError> {
        self.wait_by(&mut Limit::While(&mut go_on))
    }

    /// Arrives without waiting for the others. None if somebody has still to arrive: then [`Barrier::look`].
    ///
    /// # Errors
    ///
    /// As [`Barrier::wait`].
    pub fn arrive(&mut self) -> Result<Option<Arrival>, BarrierError> {
        at!(&mut self.at, caller => caller.arrive())
    }

    /// Whether the phase has ended in which the caller arrived. It changes nothing.
    ///
    /// # Errors
    ///
    /// [`BarrierError::NotIn`].
    pub fn look(&mut self) -> Result<Option<Arrival>, BarrierError> {
        at!(&mut self.at, caller => caller.look())
    }

    /// The caller takes part no more. If all who stay have arrived, the phase ends. Says whether nobody is left.
    ///
    /// # Errors
    ///
    /// [`BarrierError::NotIn`].
    pub fn detach(&mut self) -> Result<bool, BarrierError> {
        at!(&mut self.at, caller => caller.detach())
    }

    fn wait_by(&mut self, limit: &mut Limit<'_>) -> Result<Option<Arrival>, BarrierError> {
        if let Some(arrival) = self.arrive()? {
            return Ok(Some(arrival));
        }
        match awake(&mut || self.look().transpose()) {
            None => at!(&mut self.at, caller => caller.sleep(limit)),
            found => found.transpose(),
        }
    }
}

impl Caller {
    /// A caller that was not out.
    fn another(&self) -> Option<Caller> {
        let pass = self.shared.spare.lock().unwrap_or_else(PoisonError::into_inner).pop()?;
        let mut caller = Caller {
            shared: Arc::clone(&self.shared),
            pass: Some(pass),
        };
        // A pass that is not out takes no part, so this is never refused.
        caller.attach().ok().map(|_| caller)
    }

    fn call<T>(
        &mut self,
        ask: impl FnOnce(&par_barrier::Barrier, &mut BarrierPass) -> Result<T, BarrierAnswer>,
    ) -> Result<T, BarrierError> {
        let Some(pass) = &mut self.pass else { unreachable!("a handle has its pass up to its drop") };
        Ok(ask(&self.shared.barrier, pass)?)
    }

    fn attach(&mut self) -> Result<u64, BarrierError> {
        self.call(|barrier, pass| barrier.attach(&crate::HOST, pass))
    }

    fn arrive(&mut self) -> Result<Option<Arrival>, BarrierError> {
        let arrival = self.call(|barrier, pass| barrier.arrive(&crate::HOST, pass))?;
        self.shared.wake();
        Ok(told(arrival))
    }

    fn look(&mut self) -> Result<Option<Arrival>, BarrierError> {
        self.call(|barrier, pass| barrier.look(&crate::HOST, pass)).map(told)
    }

    fn detach(&mut self) -> Result<bool, BarrierError> {
        let left = self.call(|barrier, pass| barrier.detach(&crate::HOST, pass))?;
        self.shared.wake();
        Ok(left.last)
    }

    /// Sleeps until the phase in which the caller arrived has ended, or the limit is reached.
    fn sleep(&mut self, limit: &mut Limit<'_>) -> Result<Option<Arrival>, BarrierError> {
        let shared = Arc::clone(&self.shared);
        shared.sleep(limit, || self.look().transpose()).transpose()
    }
}

fn told(arrival: par_barrier::Arrival) -> Option<Arrival> {
    match arrival {
        par_barrier::Arrival::Waiting => None,
        par_barrier::Arrival::Released { phase, elected } => Some(Arrival {
            phase,
            is_elected: elected,
        }),
    }
}

impl Drop for Caller {
    fn drop(&mut self) {
        let _ = self.detach();
        let pass = self.pass.take();
        self.shared.spare.lock().unwrap_or_else(PoisonError::into_inner).extend(pass);
    }
}
