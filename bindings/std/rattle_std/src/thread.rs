//! Threads that borrow, over Rust's scoped threads.
//!
//! Where the system makes no thread, a job is run in the caller's thread, or comes back to the caller.

use crate::alloc::{AllocError, Global};
use crate::vec::Vec;
use std::marker::PhantomData;
use std::num::NonZeroUsize;
use std::sync::{Arc, Condvar, Mutex};
use std::{io, panic, thread};

/// The leave to start threads and to join them.
pub trait Threads {}

impl<R: Threads> Threads for &R {}

/// The processors that this process may use, within the quota of its container.
pub fn available_parallelism<R: Threads>(_rt: &R) -> io::Result<NonZeroUsize> {
    thread::available_parallelism()
}

/// A place from which one of two threads takes a value: a job that is taken by the new thread, or by the caller again.
type Slot<T> = Mutex<Option<T>>;

fn take<T>(slot: &Slot<T>) -> Option<T> {
    slot.lock().ok().and_then(|mut held| held.take())
}

/// Calls `f` in a new thread, or last where none can be made, and `g` in this one.
pub fn join<R: Threads, A: Send, B>(_rt: &R, f: impl FnOnce() -> A + Send, g: impl FnOnce() -> B) -> (A, B) {
    let job = Mutex::new(Some(f));
    thread::scope(|scope| {
        let child = thread::Builder::new().spawn_scoped(scope, || take(&job).map(|f| f()));
        let second = g();
        let first = match child {
            Ok(child) => child.join().unwrap_or_else(|cause| panic::resume_unwind(cause)),
            Err(_) => take(&job).map(|f| f()),
        };
        (first.expect("the job was taken once"), second)
    })
}

/// As [`join`], with jobs that are lent.
pub fn join_mut<R: Threads, A: Send, B>(
    rt: &R,
    f: &mut (impl FnMut() -> A + Send),
    g: &mut impl FnMut() -> B,
) -> (A, B) {
    join(rt, f, g)
}

/// Calls `f` at each job, in order of the list, and gives the results in that order. Each runs in a thread of its own
/// where one can be made. On `Err` memory ran out, and the results are dropped.
pub fn map_vec<R: Threads + Sync, J: Send, X: Send, F: Fn(J) -> X + Sync>(
    rt: &R,
    mut jobs: Vec<J>,
    f: &F,
) -> Result<Vec<X>, AllocError> {
    if jobs.len() < 2 {
        let mut done = Vec::new(Global);
        if let Some(job) = jobs.pop() {
            done.push(f(job))?;
        }
        return Ok(done);
    }
    let high = jobs.split_off(jobs.len() / 2)?;
    let (low, high) = join(rt, || map_vec(rt, jobs, f), || map_vec(rt, high, f));
    let mut all = low?;
    all.append(&mut high?)?;
    Ok(all)
}

/// Calls `f(start, chunk)` at each chunk that `items.chunks(size)` has, each in a thread of its own where one can be made,
/// and gives the results in order. On `Err` memory ran out, and the results are dropped.
pub fn map_chunks<R: Threads + Sync, T: Sync, X: Send, F: Fn(usize, &[T]) -> X + Sync>(
    rt: &R,
    alloc: Global,
    items: &[T],
    size: usize,
    f: &F,
) -> Result<Vec<X>, AllocError> {
    let mut jobs = Vec::with_capacity(alloc, items.len().div_ceil(size))?;
    for (number, chunk) in items.chunks(size).enumerate() {
        jobs.push_reserved((number * size, chunk));
    }
    map_vec(rt, jobs, &|(start, chunk)| f(start, chunk))
}

/// Calls `f(place, item)` at each item, in at most `threads` threads.
pub fn for_each_mut<R: Threads + Sync, T: Send, F: Fn(usize, &mut T) + Sync>(
    rt: &R,
    items: &mut [T],
    threads: usize,
    f: &F,
) {
    for_each_from(rt, items, 0, threads, f);
}

fn for_each_from<R: Threads + Sync, T: Send, F: Fn(usize, &mut T) + Sync>(
    rt: &R,
    items: &mut [T],
    from: usize,
    threads: usize,
    f: &F,
) {
    let parts = threads.min(items.len());
    if parts < 2 {
        for (at, item) in items.iter_mut().enumerate() {
            f(from + at, item);
        }
        return;
    }
    let low = parts / 2;
    let half = items.len() / parts * low;
    let (front, back) = items.split_at_mut(half);
    join(
        rt,
        || for_each_from(rt, front, from, low, f),
        || for_each_from(rt, back, from + half, parts - low, f),
    );
}

/// A fact about a thread's result. Erased with the contracts; the type still says who promises what.
pub trait Promise<T> {}

/// The job for which no thread could be made.
pub struct SpawnError<F> {
    pub value: F,
}

/// What a thread leaves for the one who joins it: its result, or that it ended by a panic.
struct Packet<T> {
    result: Mutex<Option<thread::Result<T>>>,
    is_there: Condvar,
}

impl<T> Packet<T> {
    fn put(&self, result: thread::Result<T>) {
        if let Ok(mut place) = self.result.lock() {
            *place = Some(result);
        }
        self.is_there.notify_all();
    }

    fn wait(&self) -> T {
        let Ok(mut place) = self.result.lock() else {
            unreachable!("no call panics while the packet is locked")
        };
        loop {
            match place.take() {
                Some(Ok(result)) => return result,
                Some(Err(cause)) => panic::resume_unwind(cause),
                None => match self.is_there.wait(place) {
                    Ok(held) => place = held,
                    Err(_) => unreachable!("no call panics while the packet is locked"),
                },
            }
        }
    }
}

/// A thread that is still to be joined. Dropping it lets the thread run on, up to the end of its scope.
pub struct PromisedHandle<T, P: Promise<T>> {
    packet: Arc<Packet<T>>,
    promise: PhantomData<fn() -> P>,
}

impl<T, P: Promise<T>> PromisedHandle<T, P> {
    /// The thread's result.
    pub fn join<R: Threads>(self, _rt: &R) -> T {
        self.packet.wait()
    }
}

/// What starts a thread that borrows for `'s`.
trait Starter<'s>: Sync {
    fn start(&self, job: Box<dyn FnOnce() + Send + 's>) -> bool;
}

struct StdScope<'scope, 'env>(&'scope thread::Scope<'scope, 'env>);

impl<'scope> Starter<'scope> for StdScope<'scope, '_> {
    fn start(&self, job: Box<dyn FnOnce() + Send + 'scope>) -> bool {
        thread::Builder::new().spawn_scoped(self.0, job).is_ok()
    }
}

/// Starts threads that may borrow for `'s`. A caller has it only by `&`.
pub struct Scope<'s, E: 's> {
    starter: Box<dyn Starter<'s> + 's>,
    env: PhantomData<fn(E) -> E>,
}

/// Names the lifetime of what the threads may borrow, which outlives the scope.
pub struct ScopeEnv<E>(PhantomData<fn(E) -> E>);

pub fn scope_env<'e>() -> ScopeEnv<&'e ()> {
    ScopeEnv(PhantomData)
}

impl<'s, E> Scope<'s, E> {
    /// Starts a thread, or gives the job back where none can be made. The handle's `join` gives a result that keeps the
    /// promise.
    pub fn spawn_with<P, F, T>(&self, promise: P, job: F) -> Result<PromisedHandle<T, P>, SpawnError<F>>
    where
        P: Promise<T>,
        F: FnOnce() -> T + Send + 's,
        T: Send + 's,
    {
        let _ = promise;
        let packet = Arc::new(Packet {
            result: Mutex::new(None),
            is_there: Condvar::new(),
        });
        let job = Arc::new(Mutex::new(Some(job)));
        let (theirs, place) = (Arc::clone(&job), Arc::clone(&packet));
        let is_started = self.starter.start(Box::new(move || {
            if let Some(f) = take(&theirs) {
                place.put(panic::catch_unwind(panic::AssertUnwindSafe(f)));
            }
        }));
        match if is_started { None } else { take(&job) } {
            Some(value) => Err(SpawnError { value }),
            None => Ok(PromisedHandle {
                packet,
                promise: PhantomData,
            }),
        }
    }
}

/// Calls `f` with a scope, in which all threads that it starts end.
pub fn scope<'env, R: Threads, T>(
    _env: ScopeEnv<&'env ()>,
    _rt: &R,
    f: impl for<'s> FnOnce(&Scope<'s, &'env ()>) -> T,
) -> T {
    thread::scope(|scope| {
        f(&Scope {
            starter: Box::new(StdScope(scope)),
            env: PhantomData,
        })
    })
}
