//! Memory that may be refused, and what has no `Debug`.

use rattle_std::alloc::AllocError;
use std::sync::Arc;

/// Something of the crates beneath, which have no `Debug`.
pub(crate) struct Opaque<T>(pub(crate) T);

impl<T> std::fmt::Debug for Opaque<T> {
    fn fmt(&self, f: &mut std::fmt::Formatter<'_>) -> std::fmt::Result {
        f.write_str("..")
    }
}

/// An empty list with this room.
pub(crate) fn reserved<T>(room: usize) -> Result<Vec<T>, AllocError> {
    let mut items = Vec::new();
    items.try_reserve_exact(room)?;
    Ok(items)
}

/// The counts of an `Arc` and its alignment at most.
pub(crate) const HEAD: usize = 256;

/// Shares a value. `Arc::new` ends the process if there is no memory, so as much is asked for and given back first.
pub(crate) fn shared<T>(value: T) -> Result<Arc<T>, AllocError> {
    drop(reserved::<u8>(size_of::<T>() + HEAD)?);
    Ok(Arc::new(value))
}
