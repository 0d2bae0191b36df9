//! What a test answers.

use std::fmt::Debug;

/// Why a test failed before it came to its end: an error that it met, or a text. It has no `Debug`, so that it may be made
/// of whatever has.
pub struct Fail(String);

impl Fail {
    pub fn new(text: &str) -> Fail {
        Fail(text.to_string())
    }
}

impl<E: Debug> From<E> for Fail {
    fn from(error: E) -> Fail {
        Fail(format!("{error:?}"))
    }
}

/// What a test may answer.
pub trait Passes {
    /// Panics where the test failed.
    fn passes(self);
}

impl Passes for () {
    fn passes(self) {}
}

impl Passes for Result<(), Fail> {
    fn passes(self) {
        if let Err(Fail(cause)) = self {
            panic!("{cause}");
        }
    }
}
