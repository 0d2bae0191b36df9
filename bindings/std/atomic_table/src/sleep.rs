//! Sleeping on a word of a table: by the lists of this process, or, in a mapping, by the system, which knows of all processes.

#[cfg(all(target_os = "linux", any(target_arch = "x86_64", target_arch = "aarch64")))]
use crate::futex;
use crate::lists::{sleep_on, wake_first};
use crate::{Shared, TableRule};
use rattle_std::sync::Wait;
use std::time::Duration;

/// How long a sleep without a limit lasts in a mapping, since whoever would wake may have ended.
#[cfg(all(target_os = "linux", any(target_arch = "x86_64", target_arch = "aarch64")))]
const LONGEST_SLEEP: Duration = Duration::from_millis(100);

impl<S, V, K, P: TableRule<S, V, K>> Shared<S, V, K, P> {
    /// Sleeps if the low 32 bits of the word are `expected`, until a wake. It may also return for no reason.
    #[cold]
    pub fn park<R: Wait>(&self, _rt: &R, word: usize, expected: u32) {
        #[cfg(all(target_os = "linux", any(target_arch = "x86_64", target_arch = "aarch64")))]
        if self.place.is_in_mapping() {
            return futex::sleep_on(self.word(word), expected, LONGEST_SLEEP);
        }
        sleep_on(self.word(word), expected, None);
    }

    /// The same, for no longer than `dur`.
    #[cold]
    pub fn park_timeout<R: Wait>(&self, _rt: &R, word: usize, expected: u32, dur: Duration) {
        #[cfg(all(target_os = "linux", any(target_arch = "x86_64", target_arch = "aarch64")))]
        if self.place.is_in_mapping() {
            return futex::sleep_on(self.word(word), expected, dur);
        }
        sleep_on(self.word(word), expected, Some(dur));
    }

    /// Wakes one of those who sleep on the word, if there is one.
    #[cold]
    pub fn wake_one(&self, word: usize) {
        #[cfg(all(target_os = "linux", any(target_arch = "x86_64", target_arch = "aarch64")))]
        if self.place.is_in_mapping() {
            return futex::wake(self.word(word), 1);
        }
        wake_first(self.word(word));
    }

    /// Wakes all who sleep on the word.
    #[cold]
    pub fn wake_all(&self, word: usize) {
        #[cfg(all(target_os = "linux", any(target_arch = "x86_64", target_arch = "aarch64")))]
        if self.place.is_in_mapping() {
            return futex::wake(self.word(word), u32::MAX);
        }
        while wake_first(self.word(word)) {}
    }
}
