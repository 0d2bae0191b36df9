//! Stands for the toolchain's `anyhow`: any error, as the result of a program's `main`.

#![forbid(unsafe_code)]

use std::fmt;

/// An error of whatever type.
pub struct Error(Box<dyn std::error::Error + Send + Sync>);

/// A result whose error may be any.
pub type Result<T> = std::result::Result<T, Error>;

impl fmt::Debug for Error {
    fn fmt(&self, f: &mut fmt::Formatter<'_>) -> fmt::Result {
        fmt::Display::fmt(&self.0, f)
    }
}

impl<E: std::error::Error + Send + Sync + 'static> From<E> for Error {
    fn from(error: E) -> Error {
        Error(Box::new(error))
    }
}
