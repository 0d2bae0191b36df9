//! What a program does if one of its threads panics.
//!
//! A thread that is started panics if there is no memory for its stack of signals. Rust's hook then prints a backtrace, if
//! RUST_BACKTRACE asks for one, with a lock in hand; and if that finds no memory either, what reports this waits for the
//! same lock, forever. Here a panic takes no lock and asks for no memory.

use std::fmt::{self, Write as _};
use std::io::{self, Write as _};
use std::panic::{self, PanicHookInfo};
use std::process;

/// The most bytes of a message that are shown.
const MOST_SHOWN: usize = 512;

/// The first bytes of a text. Those past the room are left out.
struct Shown {
    bytes: [u8; MOST_SHOWN],
    len: usize,
}

impl fmt::Write for Shown {
    fn write_str(&mut self, text: &str) -> fmt::Result {
        let room = &mut self.bytes[self.len..];
        let count = room.len().min(text.len());
        room[..count].copy_from_slice(&text.as_bytes()[..count]);
        self.len += count;
        Ok(())
    }
}

/// From now on a panic of any thread writes its message to the standard error, as far as that takes it, and ends the process
/// by SIGABRT. For a program to call at its start; it takes no memory.
pub fn end_at_panics() {
    panic::set_hook(Box::new(|panic| {
        show(panic);
        process::abort()
    }));
}

/// Writes the message of a panic. That it can't be written changes nothing.
fn show(panic: &PanicHookInfo<'_>) {
    let mut shown = Shown { bytes: [0; MOST_SHOWN], len: 0 };
    let _ = writeln!(shown, "{panic}");
    let _ = write_past_locks(&shown.bytes[..shown.len]);
}

/// Writes to the standard error by a copy of its descriptor, so that no thread has it locked.
#[cfg(unix)]
fn write_past_locks(bytes: &[u8]) -> io::Result<()> {
    use std::fs::File;
    use std::os::fd::AsFd;
    File::from(io::stderr().as_fd().try_clone_to_owned()?).write_all(bytes)
}

#[cfg(not(unix))]
fn write_past_locks(bytes: &[u8]) -> io::Result<()> {
    io::stderr().write_all(bytes)
}
