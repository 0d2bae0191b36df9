//! A `String` whose calls that take memory may refuse.

use crate::alloc::{AllocError, Global};
use crate::vec::Vec;
use std::fmt;
use std::ops::Deref;

/// A growing text in UTF-8.
#[derive(PartialEq, Eq, PartialOrd, Ord, Hash)]
pub struct String(std::string::String);

impl String {
    /// No text; takes no memory.
    pub const fn new(_alloc: Global) -> String {
        String(std::string::String::new())
    }

    /// A copy of a text.
    pub fn from_str(alloc: Global, text: &str) -> Result<String, AllocError> {
        let mut copy = String::new(alloc);
        copy.push_str(text)?;
        Ok(copy)
    }

    /// Rust's text as one of these, with no copy.
    pub fn from_std(text: std::string::String) -> String {
        String(text)
    }

    /// Bytes as a text, with U+FFFD for each sequence that is not UTF-8.
    pub fn from_utf8_lossy(alloc: Global, bytes: &[u8]) -> Result<String, AllocError> {
        let mut text = String::with_capacity(alloc, bytes.len())?;
        for chunk in bytes.utf8_chunks() {
            text.push_str(chunk.valid())?;
            if !chunk.invalid().is_empty() {
                text.push('\u{FFFD}')?;
            }
        }
        Ok(text)
    }

    /// No text, with room for so many bytes.
    pub fn with_capacity(alloc: Global, room: usize) -> Result<String, AllocError> {
        let mut text = String::new(alloc);
        text.0.try_reserve_exact(room)?;
        Ok(text)
    }

    pub fn push_str(&mut self, text: &str) -> Result<(), AllocError> {
        self.0.try_reserve(text.len())?;
        self.0.push_str(text);
        Ok(())
    }

    pub fn push(&mut self, one: char) -> Result<(), AllocError> {
        self.0.try_reserve(one.len_utf8())?;
        self.0.push(one);
        Ok(())
    }

    pub fn clone(&self) -> Result<String, AllocError> {
        String::from_str(Global, &self.0)
    }

    pub fn as_str(&self) -> &str {
        &self.0
    }

    pub fn into_bytes(self) -> Vec<u8> {
        Vec::from_std(self.0.into_bytes())
    }

    pub fn clear(&mut self) {
        self.0.clear();
    }
}

impl Deref for String {
    type Target = str;

    fn deref(&self) -> &str {
        &self.0
    }
}

impl AsRef<str> for String {
    fn as_ref(&self) -> &str {
        &self.0
    }
}

impl fmt::Debug for String {
    fn fmt(&self, f: &mut fmt::Formatter<'_>) -> fmt::Result {
        fmt::Debug::fmt(&self.0, f)
    }
}

impl fmt::Display for String {
    fn fmt(&self, f: &mut fmt::Formatter<'_>) -> fmt::Result {
        fmt::Display::fmt(&self.0, f)
    }
}

impl PartialEq<str> for String {
    fn eq(&self, other: &str) -> bool {
        self.0 == other
    }
}

impl PartialEq<&str> for String {
    fn eq(&self, other: &&str) -> bool {
        self.0 == *other
    }
}

/// `repeat` with the allocator, which the eraser calls by this name.
pub trait RepeatIn {
    /// The text so often.
    fn repeat_in(&self, alloc: Global, count: usize) -> Result<String, AllocError>;
}

impl RepeatIn for str {
    fn repeat_in(&self, alloc: Global, count: usize) -> Result<String, AllocError> {
        let mut text = String::new(alloc);
        for _ in 0..count {
            text.push_str(self)?;
        }
        Ok(text)
    }
}
