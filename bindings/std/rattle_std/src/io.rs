//! Rust's readers, writers and errors.

pub use std::io::*;
