//! Sleeping on a word that only the threads of this process reach, and waking those who do.
//!
//! Each system has a call for it (`futex` on Linux), but none that Rust's library shows. So who sleeps stands in one of a
//! few lists, found by the word's address, and sleeps by `thread::park`. Whoever is about to sleep looks at the word while
//! it has the list, and whoever wakes takes the list after it changed the word: so one of the two sees the other.

use std::sync::atomic::AtomicU64;
use std::sync::atomic::Ordering::SeqCst;
use std::sync::{Mutex, MutexGuard, PoisonError};
use std::thread::{self, Thread};
use std::time::Duration;

/// How many lists there are, as a power of two: words that share one only make its sleepers wait for one another's turns
/// at the list.
const LISTS_LOG: u32 = 6;

/// 2^64 over the golden ratio: a product with it spreads addresses over its upper bits.
const SPREAD: u64 = 0x9e37_79b9_7f4a_7c15;

/// A thread that sleeps, and the address of the word that it sleeps on.
struct Sleeper {
    word: usize,
    thread: Thread,
}

static LISTS: [Mutex<Vec<Sleeper>>; 1 << LISTS_LOG] = [const { Mutex::new(Vec::new()) }; 1 << LISTS_LOG];

fn list_of(word: usize) -> MutexGuard<'static, Vec<Sleeper>> {
    let list = (word as u64).wrapping_mul(SPREAD) >> (u64::BITS - LISTS_LOG);
    LISTS[list as usize].lock().unwrap_or_else(PoisonError::into_inner)
}

fn address_of(word: &AtomicU64) -> usize {
    std::ptr::from_ref(word).addr()
}

/// Puts this thread into the list of the word if its low 32 bits are `expected`, and there is memory for it.
fn begins_sleep(word: &AtomicU64, expected: u32) -> bool {
    let at = address_of(word);
    let mut sleepers = list_of(at);
    if word.load(SeqCst) as u32 != expected {
        return false;
    }
    if sleepers.try_reserve(1).is_err() {
        drop(sleepers);
        thread::yield_now();
        return false;
    }
    sleepers.push(Sleeper {
        word: at,
        thread: thread::current(),
    });
    true
}

/// Takes this thread out of the list of the word, if nobody woke it.
fn ends_sleep(word: &AtomicU64) {
    let at = address_of(word);
    let me = thread::current().id();
    list_of(at).retain(|sleeper| sleeper.word != at || sleeper.thread.id() != me);
}

/// Takes the thread that has slept longest on the word out of the list.
fn first_sleeper(at: usize) -> Option<Thread> {
    let mut sleepers = list_of(at);
    let first = sleepers.iter().position(|sleeper| sleeper.word == at)?;
    Some(sleepers.remove(first).thread)
}

/// Sleeps if the low 32 bits of the word are `expected`, until a wake, or for no longer than `time` if there is one. It may also return
/// for no reason.
pub(crate) fn sleep_on(word: &AtomicU64, expected: u32, time: Option<Duration>) {
    if begins_sleep(word, expected) {
        match time {
            None => thread::park(),
            Some(time) => thread::park_timeout(time),
        }
        ends_sleep(word);
    }
}

/// Wakes the thread that has slept longest on the word; false if there is none.
pub(crate) fn wake_first(word: &AtomicU64) -> bool {
    let first = first_sleeper(address_of(word));
    first.map(|thread| thread.unpark()).is_some()
}
