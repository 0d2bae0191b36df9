//! What a pointer that C holds points to.

use crate::codes::{LK_FREED, LK_KIND, LK_NO_MEMORY, LK_NULL};
use std::alloc::{Layout, alloc};
use std::ffi::c_int;

/// What a handle is: an arbitrary word for each kind, so that other memory hardly looks like one.
#[derive(Clone, Copy, Debug, PartialEq, Eq)]
#[repr(transparent)]
pub struct Kind(u64);

pub(crate) const SENDER: Kind = Kind(0x6c6b_5345_4e44_4552);
pub(crate) const RECEIVER: Kind = Kind(0x6c6b_5245_4345_4956);
pub(crate) const AREA: Kind = Kind(0x6c6b_4152_4541_0001);
pub(crate) const CHUNK: Kind = Kind(0x6c6b_4348_554e_4b01);
pub(crate) const FREED: Kind = Kind(0x6c6b_4652_4545_4400);
pub(crate) const TABLE: Kind = Kind(0x6c6b_5441_424c_4501);
pub(crate) const BARRIER: Kind = Kind(0x6c6b_4241_5252_4945);
pub(crate) const TOC: Kind = Kind(0x6c6b_544f_4300_0001);
pub(crate) const TOC_CHUNK: Kind = Kind(0x6c6b_544f_4300_0002);
pub(crate) const WORD_TABLE: Kind = Kind(0x6c6b_574f_5244_0001);
pub(crate) const REGION: Kind = Kind(0x6c6b_5245_4749_4f4e);
pub(crate) const FROZEN: Kind = Kind(0x6c6b_544f_4300_0003);

/// A value that C holds by a pointer. The kind comes first, whatever the value is.
#[repr(C)]
pub struct Handle<T> {
    kind: Kind,
    pub(crate) value: T,
}

impl<T> Handle<T> {
    /// Hands a value out to C; it is dropped if there is no memory for its handle.
    pub(crate) fn new(kind: Kind, value: T) -> Result<*mut Handle<T>, c_int> {
        // SAFETY: a handle has a kind, so its size is not 0.
        let handle = unsafe { alloc(Layout::new::<Handle<T>>()) }.cast::<Handle<T>>();
        if handle.is_null() {
            return Err(LK_NO_MEMORY);
        }
        // SAFETY: the memory has the size and alignment of a handle, as `Box::from_raw` in `close` and `release` asks for too.
        unsafe { handle.write(Handle { kind, value }) };
        Ok(handle)
    }
}

/// The kind that a pointer shows.
///
/// # Safety
///
/// The pointer is null, or to a handle of this library, of whatever kind, whose memory was not given back.
unsafe fn kind_of<T>(handle: *mut Handle<T>) -> Result<Kind, c_int> {
    if handle.is_null() {
        return Err(LK_NULL);
    }
    // SAFETY: it points to a handle, which begins with its kind whatever its type is; only that word is read.
    Ok(unsafe { (&raw const (*handle).kind).read() })
}

/// The code of a kind that is another than the one that was due.
fn wrong(kind: Kind) -> c_int {
    if kind == FREED { LK_FREED } else { LK_KIND }
}

/// The value of a handle of this kind, for the time of one call.
///
/// # Safety
///
/// As for `kind_of`; and no other call uses the handle meanwhile.
pub(crate) unsafe fn open<'a, T>(handle: *mut Handle<T>, kind: Kind) -> Result<&'a mut T, c_int> {
    // SAFETY: the same duty.
    let found = unsafe { kind_of(handle) }?;
    if found != kind {
        return Err(wrong(found));
    }
    // SAFETY: the kind says that a `T` is there, since each kind is given to handles of only one type; and only this call
    // uses it.
    Ok(unsafe { &mut (*handle).value })
}

/// Takes back the handle at a place, which becomes null. A null handle is no error: it is closed already.
///
/// # Safety
///
/// As for `open`; the place is null or may be read and written.
pub(crate) unsafe fn close<T>(place: *mut *mut Handle<T>, kind: Kind) -> Result<Option<T>, c_int> {
    if place.is_null() {
        return Err(LK_NULL);
    }
    // SAFETY: the place may be read.
    let handle = unsafe { *place };
    if handle.is_null() {
        return Ok(None);
    }
    // SAFETY: the same duty.
    let found = unsafe { kind_of(handle) }?;
    if found != kind {
        return Err(wrong(found));
    }
    // SAFETY: the kind says that it came from `Handle::new` at this type, and it was not closed. The word is overwritten
    // first, so that a later use is told as long as the memory stays as it is.
    let closed = unsafe {
        *place = std::ptr::null_mut();
        (*handle).kind = FREED;
        Box::from_raw(handle)
    };
    Ok(Some(closed.value))
}

/// Marks a handle as freed, and takes its value out, without giving its memory back.
///
/// # Safety
///
/// As for `open`.
pub(crate) unsafe fn retire<T>(handle: *mut Handle<Option<T>>, kind: Kind) -> Result<T, c_int> {
    // SAFETY: the same duty.
    let value = unsafe { open(handle, kind) }?.take().ok_or(LK_FREED)?;
    // SAFETY: `open` has found that it is a handle of this type.
    unsafe { (*handle).kind = FREED };
    Ok(value)
}

/// Fills a retired handle again.
///
/// # Safety
///
/// The handle was retired, and nobody else has it.
pub(crate) unsafe fn refill<T>(handle: *mut Handle<Option<T>>, kind: Kind, value: T) {
    // SAFETY: its memory was kept, and only this call uses it.
    unsafe {
        (*handle).value = Some(value);
        (*handle).kind = kind;
    }
}

/// Gives the memory of a retired handle back.
///
/// # Safety
///
/// As for `refill`; it is not used any more.
pub(crate) unsafe fn release<T>(handle: *mut Handle<Option<T>>) {
    // SAFETY: it came from `Handle::new`, and is released once.
    drop(unsafe { Box::from_raw(handle) });
}

/// Writes a value to a place that C gave.
///
/// # Safety
///
/// The place is null or may be written.
pub(crate) unsafe fn put<T>(place: *mut T, value: T) -> Result<(), c_int> {
    if place.is_null() {
        return Err(LK_NULL);
    }
    // SAFETY: the place may be written.
    unsafe { place.write(value) };
    Ok(())
}

/// Writes a handle for a value to a place that C gave, which is left as it is if there is no memory.
///
/// # Safety
///
/// The place is null or may be written.
pub(crate) unsafe fn put_handle<T>(place: *mut *mut Handle<T>, kind: Kind, value: T) -> Result<(), c_int> {
    if place.is_null() {
        return Err(LK_NULL);
    }
    let handle = Handle::new(kind, value)?;
    // SAFETY: the place may be written.
    unsafe { place.write(handle) };
    Ok(())
}

/// Writes a handle for what is made of each item to a list of places. If there is no memory for one, those before it are taken back, and their
/// places are null.
///
/// # Safety
///
/// The list is null or has room for all of them.
pub(crate) unsafe fn put_all<U, T>(
    places: *mut *mut Handle<T>,
    kind: Kind,
    items: Vec<U>,
    make: impl Fn(U) -> T,
) -> Result<(), c_int> {
    if places.is_null() {
        return Err(LK_NULL);
    }
    for (at, item) in items.into_iter().enumerate() {
        // SAFETY: the list has room for all of them.
        if let Err(code) = unsafe { put_handle(places.add(at), kind, make(item)) } {
            for before in 0..at {
                // SAFETY: a handle of this kind was written there just now.
                let _ = unsafe { close(places.add(before), kind) };
            }
            return Err(code);
        }
    }
    Ok(())
}

/// The code of what a call came to.
pub(crate) fn code(result: Result<c_int, c_int>) -> c_int {
    result.unwrap_or_else(|code| code)
}
