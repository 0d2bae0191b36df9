//! The words of the command line.
//!
//! A caller gets them as texts, or one by one as bytes.

use crate::HostRuntime;
use crate::string::String;
use std::io;

/// The words, the program's name first. `Err` of the kind `InvalidData` where one is no UTF-8.
pub fn args(_runtime: &HostRuntime) -> io::Result<std::vec::IntoIter<String>> {
    let words: Result<std::vec::Vec<String>, _> = std::env::args_os()
        .map(|word| word.into_string().map(String::from_std))
        .collect();
    match words {
        Ok(words) => Ok(words.into_iter()),
        Err(_) => Err(io::ErrorKind::InvalidData.into()),
    }
}

/// Why a word was not given.
#[derive(Clone, Copy, Debug, PartialEq, Eq)]
pub enum FillError {
    NotPresent,
    TooLong,
}

/// Access to the words one by one.
pub trait Env {
    /// Copies word `at` to the start of `buffer`, and answers its length. Word 0 is the program's name.
    fn arg(&self, at: usize, buffer: &mut [u8]) -> Result<usize, FillError>;
}

impl Env for HostRuntime {
    fn arg(&self, at: usize, buffer: &mut [u8]) -> Result<usize, FillError> {
        let word = std::env::args_os().nth(at).ok_or(FillError::NotPresent)?.into_encoded_bytes();
        let place = buffer.get_mut(..word.len()).ok_or(FillError::TooLong)?;
        place.copy_from_slice(&word);
        Ok(word.len())
    }
}
