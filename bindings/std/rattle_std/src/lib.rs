//! What stands for the toolchain's own std, where Rust's differs from it.
//!
//! Memory may run out: a call that takes some is passed the allocator and answers a `Result`. Threads, waiting and the
//! standard streams go through a handle. All else is Rust's std, under the same paths. None of this is proved; over each
//! type stands the sentence of the statement that the proofs rest on, and that this code has to meet.

#![deny(unsafe_code)]
#![expect(clippy::should_implement_trait, reason = "a copy may be refused, so `clone` is no `Clone`")]

pub mod alloc;
pub mod collections;
pub mod env;
pub mod hash;
pub mod io;
mod macros;
pub mod marker;
mod panics;
pub mod process;
mod runtime;
pub mod simd;
pub mod snapshot;
#[cfg(unix)]
pub mod streams;
pub mod string;
pub mod sync;
pub mod test;
pub mod thread;
pub mod time;
pub mod vec;

pub use panics::end_at_panics;
pub use runtime::HostRuntime;
pub use std::{borrow, cell, char, cmp, convert, error, fmt, iter, mem, num, ops, option, result, slice, str};

/// What each erased file has in scope.
pub mod prelude {
    pub use crate::HostRuntime;
    pub use crate::string::{RepeatIn, String};
    pub use crate::vec::{CollectIn, Vec};
}
