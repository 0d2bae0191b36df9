//! Sleeping on a word of a mapping until another process wakes, by the system's `futex`.

use std::ffi::c_long;
use std::sync::atomic::AtomicU64;
use std::time::Duration;

unsafe extern "C" {
    fn syscall(number: c_long, ...) -> c_long;
}

#[cfg(target_arch = "x86_64")]
const SYS_FUTEX: c_long = 202;
#[cfg(target_arch = "aarch64")]
const SYS_FUTEX: c_long = 98;

/// The forms for processes: those with the private flag are for the threads of one.
const FUTEX_WAIT: c_long = 0;
const FUTEX_WAKE: c_long = 1;

const NANOS_PER_SECOND: u128 = 1_000_000_000;

/// Sleeps if the word's low 32 bits are `expected`, until a wake, no longer than `time`. It may return for no reason.
#[cold]
pub fn sleep_on(word: &AtomicU64, expected: u32, time: Duration) {
    let nanos = time.as_nanos();
    let limit = [(nanos / NANOS_PER_SECOND) as i64, (nanos % NANOS_PER_SECOND) as i64];
    // SAFETY: the word is there, and its low half comes first on a little-endian machine (see below); the limit is there
    // until the call returns. Whatever the answer is, the caller looks again.
    unsafe { syscall(SYS_FUTEX, word.as_ptr().cast::<u32>(), FUTEX_WAIT, c_long::from(expected), limit.as_ptr()) };
}

#[cfg(target_endian = "big")]
compile_error!("a futex is the low half of a word");

/// Wakes as many of those who sleep on the word as this, in every process.
#[cold]
pub fn wake(word: &AtomicU64, most: u32) {
    // SAFETY: the word is there; nothing of the program is changed.
    unsafe { syscall(SYS_FUTEX, word.as_ptr().cast::<u32>(), FUTEX_WAKE, c_long::from(most.min(i32::MAX as u32))) };
}
