//! A value that only contracts see.

use std::marker::PhantomData;

/// A `T` as clauses see it. It has no bytes and owns nothing.
pub struct Snapshot<T>(PhantomData<fn() -> T>);

impl<T> Snapshot<T> {
    pub fn of(_value: &T) -> Snapshot<T> {
        Snapshot(PhantomData)
    }
}
