//! How a process ends.

pub use std::process::*;

/// The leave to end the process, as a failed assertion of a test does.
pub trait Abort {}

impl<R: Abort> Abort for &R {}
