//! The handle that a program's `main` is given.

use crate::alloc::Global;
use crate::process::Abort;
use crate::sync::Wait;
use crate::thread::Threads;
use crate::time::Clock;

/// The runtime: it may wait and start threads, and has the allocator and the standard streams.
#[derive(Clone, Copy, Debug, Default)]
pub struct HostRuntime;

impl HostRuntime {
    pub const fn new() -> HostRuntime {
        HostRuntime
    }

    pub fn alloc(&self) -> Global {
        Global
    }

    #[cfg(unix)]
    pub fn stdin(&self) -> crate::streams::Stdin {
        crate::streams::Stdin::new()
    }

    #[cfg(not(unix))]
    pub fn stdin(&self) -> std::io::Stdin {
        std::io::stdin()
    }

    /// Without a buffer of lines, since the programs write whole pieces and flush each.
    #[cfg(unix)]
    pub fn stdout(&self) -> crate::streams::Stdout {
        crate::streams::Stdout::new()
    }

    #[cfg(not(unix))]
    pub fn stdout(&self) -> std::io::Stdout {
        std::io::stdout()
    }

    pub fn stderr(&self) -> std::io::Stderr {
        std::io::stderr()
    }

    /// The lines of the standard input, without their ends.
    pub fn lines(&self, _alloc: Global) -> impl Iterator<Item = std::io::Result<String>> {
        std::io::stdin().lines()
    }
}

impl Wait for HostRuntime {}

impl Threads for HostRuntime {}

impl Clock for HostRuntime {}

impl Abort for HostRuntime {}
