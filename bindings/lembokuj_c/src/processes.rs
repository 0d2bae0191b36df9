//! Regions that processes share, for C: how one is laid out, opened and attached to, and how handles are taken of it. The calls of
//! the handles are those of the other modules.

use crate::area::Caller;
use crate::codes::*;
use crate::handle::{AREA, BARRIER, Handle, Kind, RECEIVER, REGION, SENDER, TABLE, close, code, open, put, put_handle};
use crate::queue::lent;
use crate::table::Numbers;
use lembokuj::processes::{AttachError, BuildError, Builder, Reaped, Region, TakeError};
use lembokuj::{Barrier, Rx, Tx};
use std::ffi::{CStr, c_char, c_int};
use std::os::fd::BorrowedFd;

/// A region that C has: being laid out, or open. None of both once a call that opened it has ended it.
pub enum Held {
    /// Being laid out.
    Made(Option<Builder>),
    /// Open.
    Open(Region),
}

type RegionHandle = Handle<Held>;

fn why_not_made(why: BuildError) -> c_int {
    match why {
        BuildError::System => LK_SYSTEM,
        BuildError::Words | BuildError::RingSize | BuildError::MessageSize | BuildError::Pages => LK_BAD_SIZE,
        BuildError::Callers => LK_BAD_CALLERS,
        BuildError::Full => LK_FULL,
        BuildError::NoSpace => LK_NO_SPACE,
        BuildError::KeyThere => LK_KEY_THERE,
    }
}

fn why_not_attached(why: AttachError) -> c_int {
    match why {
        AttachError::System => LK_SYSTEM,
        AttachError::NotRegion => LK_NOT_REGION,
        AttachError::Version => LK_OTHER_VERSION,
        AttachError::Layout => LK_OTHER_BUILD,
        AttachError::Size => LK_OTHER_SIZE,
        AttachError::Damaged => LK_DAMAGED,
        AttachError::NotOpen => LK_NOT_OPEN,
        AttachError::OtherSystem => LK_OTHER_SYSTEM,
    }
}

fn why_not_taken(why: TakeError) -> c_int {
    match why {
        TakeError::NoKey => LK_NO_KEY,
        TakeError::Taken => LK_TAKEN,
        TakeError::Memory => LK_NO_MEMORY,
    }
}

/// The text of a name. One that is not UTF-8 is no name that the library gives.
///
/// # Safety
///
/// It is null, or ends with a zero and is not changed during the call.
unsafe fn name_at<'a>(name: *const c_char) -> Result<&'a str, c_int> {
    if name.is_null() {
        return Err(LK_NULL);
    }
    // SAFETY: the caller's duty.
    unsafe { CStr::from_ptr(name) }.to_str().map_err(|_| LK_SYSTEM)
}

/// Gives C a region that is being laid out.
///
/// # Safety
///
/// `out` is null or may be written.
unsafe fn give_made(out: *mut *mut RegionHandle, made: impl FnOnce() -> Result<Builder, BuildError>) -> Result<c_int, c_int> {
    if out.is_null() {
        return Err(LK_NULL);
    }
    let builder = made().map_err(why_not_made)?;
    // SAFETY: the caller's duty.
    unsafe { put_handle(out, REGION, Held::Made(Some(builder))) }.map(|()| LK_OK)
}

/// Gives C an open region.
///
/// # Safety
///
/// `out` is null or may be written.
unsafe fn give_open(out: *mut *mut RegionHandle, attached: impl FnOnce() -> Result<Region, AttachError>) -> Result<c_int, c_int> {
    if out.is_null() {
        return Err(LK_NULL);
    }
    let region = attached().map_err(why_not_attached)?;
    // SAFETY: the caller's duty.
    unsafe { put_handle(out, REGION, Held::Open(region)) }.map(|()| LK_OK)
}

/// Lays an object out in a region.
///
/// # Safety
///
/// `region` is a handle that only this call uses.
unsafe fn lay_out(region: *mut RegionHandle, add: impl FnOnce(&mut Builder) -> Result<(), BuildError>) -> Result<c_int, c_int> {
    // SAFETY: the caller's duty.
    match unsafe { open(region, REGION) }? {
        Held::Made(Some(builder)) => add(builder).map(|()| LK_OK).map_err(why_not_made),
        _ => Err(LK_KIND),
    }
}

/// The open region of a handle.
///
/// # Safety
///
/// `region` is a handle that no call changes meanwhile.
unsafe fn opened<'a>(region: *const RegionHandle) -> Result<&'a Region, c_int> {
    // SAFETY: the caller's duty; nothing of the handle is changed.
    match unsafe { open(region.cast_mut(), REGION) }? {
        Held::Open(region) => Ok(region),
        Held::Made(_) => Err(LK_NOT_OPEN),
    }
}

/// Gives C a handle of an object of a region.
///
/// # Safety
///
/// `region` is a handle that no call changes meanwhile; `out` is null or may be written.
unsafe fn take<T>(
    region: *const RegionHandle,
    out: *mut *mut Handle<T>,
    kind: Kind,
    taken: impl FnOnce(&Region) -> Result<T, c_int>,
) -> c_int {
    if out.is_null() {
        return LK_NULL;
    }
    // SAFETY: the caller's duty.
    code(unsafe { opened(region).and_then(taken).and_then(|handle| put_handle(out, kind, handle)).map(|()| LK_OK) })
}

/// See the header.
///
/// # Safety
///
/// `out` is null or may be written.
#[unsafe(no_mangle)]
pub unsafe extern "C" fn lk_region_create(words: u64, out: *mut *mut RegionHandle) -> c_int {
    // SAFETY: the same duty.
    code(unsafe { give_made(out, || Region::create(words)) })
}

/// See the header.
///
/// # Safety
///
/// `name` is null or ends with a zero; `out` is null or may be written.
#[unsafe(no_mangle)]
pub unsafe extern "C" fn lk_region_create_named(name: *const c_char, words: u64, out: *mut *mut RegionHandle) -> c_int {
    // SAFETY: the same duty.
    code(unsafe { name_at(name).and_then(|name| give_made(out, || Region::create_named(name, words))) })
}

/// See the header.
///
/// # Safety
///
/// `region` is a handle that only this call uses.
#[unsafe(no_mangle)]
pub unsafe extern "C" fn lk_region_add_queue(region: *mut RegionHandle, key: u64, ring_words: u64, max_bytes: u32) -> c_int {
    // SAFETY: the same duty.
    code(unsafe { lay_out(region, |builder| builder.queue(key, ring_words, max_bytes)) })
}

/// See the header.
///
/// # Safety
///
/// `region` is a handle that only this call uses.
#[unsafe(no_mangle)]
pub unsafe extern "C" fn lk_region_add_table(region: *mut RegionHandle, key: u64, pages: u32, callers: u32) -> c_int {
    // SAFETY: the same duty.
    code(unsafe { lay_out(region, |builder| builder.table(key, pages, callers)) })
}

/// See the header.
///
/// # Safety
///
/// `region` is a handle that only this call uses.
#[unsafe(no_mangle)]
pub unsafe extern "C" fn lk_region_add_area(region: *mut RegionHandle, key: u64, pages: u32, callers: u32) -> c_int {
    // SAFETY: the same duty.
    code(unsafe { lay_out(region, |builder| builder.area(key, pages, callers)) })
}

/// See the header.
///
/// # Safety
///
/// `region` is a handle that only this call uses.
#[unsafe(no_mangle)]
pub unsafe extern "C" fn lk_region_add_barrier(region: *mut RegionHandle, key: u64, callers: u32) -> c_int {
    // SAFETY: the same duty.
    code(unsafe { lay_out(region, |builder| builder.barrier(key, callers)) })
}

/// See the header.
///
/// # Safety
///
/// `region` is a handle that only this call uses; `words` is null or has `count` of them.
#[unsafe(no_mangle)]
pub unsafe extern "C" fn lk_region_add_words(region: *mut RegionHandle, key: u64, words: *const u64, count: usize) -> c_int {
    // SAFETY: the same duty.
    code(unsafe { lent(words, count).and_then(|words| lay_out(region, |builder| builder.words(key, words))) })
}

/// See the header.
///
/// # Safety
///
/// `region` is a handle that only this call uses.
#[unsafe(no_mangle)]
pub unsafe extern "C" fn lk_region_open(region: *mut RegionHandle) -> c_int {
    // SAFETY: the caller's duty.
    let held = match unsafe { open(region, REGION) } {
        Ok(held) => held,
        Err(code) => return code,
    };
    let Held::Made(builder) = held else { return LK_KIND };
    let Some(builder) = builder.take() else { return LK_KIND };
    *held = Held::Open(builder.open());
    LK_OK
}

/// See the header.
///
/// # Safety
///
/// `name` is null or ends with a zero.
#[unsafe(no_mangle)]
pub unsafe extern "C" fn lk_region_unlink(name: *const c_char) -> c_int {
    // SAFETY: the caller's duty.
    code(unsafe { name_at(name) }.and_then(|name| Region::unlink(name).map(|()| LK_OK).map_err(|_| LK_SYSTEM)))
}

/// See the header.
///
/// # Safety
///
/// `out` is null or may be written.
#[unsafe(no_mangle)]
pub unsafe extern "C" fn lk_region_attach(fd: c_int, out: *mut *mut RegionHandle) -> c_int {
    // SAFETY: the caller's duty. A descriptor that is not open is refused as it is duplicated, and it is not kept.
    code(unsafe {
        give_open(out, || {
            if fd < 0 {
                return Err(AttachError::System);
            }
            Region::attach(BorrowedFd::borrow_raw(fd))
        })
    })
}

/// See the header.
///
/// # Safety
///
/// `name` is null or ends with a zero; `out` is null or may be written.
#[unsafe(no_mangle)]
pub unsafe extern "C" fn lk_region_attach_named(name: *const c_char, out: *mut *mut RegionHandle) -> c_int {
    // SAFETY: the same duty.
    code(unsafe { name_at(name).and_then(|name| give_open(out, || Region::attach_named(name))) })
}

/// See the header.
///
/// # Safety
///
/// `region` is a handle that no call closes meanwhile; `fd` is null or may be written.
#[unsafe(no_mangle)]
pub unsafe extern "C" fn lk_region_fd(region: *const RegionHandle, fd: *mut c_int) -> c_int {
    // SAFETY: the same duty.
    code(unsafe { opened(region).and_then(|region| put(fd, region.fd())).map(|()| LK_OK) })
}

/// See the header.
///
/// # Safety
///
/// `region` is a handle that no call closes meanwhile; `word` is null or may be written.
#[unsafe(no_mangle)]
pub unsafe extern "C" fn lk_region_load(region: *const RegionHandle, key: u64, at: u64, word: *mut u64) -> c_int {
    // SAFETY: the same duty.
    code(unsafe {
        opened(region)
            .and_then(|region| region.load(key, at).map_err(why_not_taken))
            .and_then(|found| found.ok_or(LK_NO_WORD))
            .and_then(|found| put(word, found))
            .map(|()| LK_OK)
    })
}

/// What `lk_region_reap` found, as the header has it.
#[repr(C)]
pub struct ReapedCounts {
    freed: u64,
    detached: u64,
    lost: u64,
    chunks: u64,
}

/// See the header.
///
/// # Safety
///
/// `region` is a handle that no call closes meanwhile; `reaped` is null or may be written.
#[unsafe(no_mangle)]
pub unsafe extern "C" fn lk_region_reap(region: *const RegionHandle, reaped: *mut ReapedCounts) -> c_int {
    // SAFETY: the caller's duty.
    let Reaped { freed, detached, lost, chunks } = match unsafe { opened(region) } {
        Ok(region) => region.reap(),
        Err(code) => return code,
    };
    if !reaped.is_null() {
        // SAFETY: the place may be written.
        unsafe { reaped.write(ReapedCounts { freed, detached, lost, chunks }) };
    }
    LK_OK
}

/// See the header.
///
/// # Safety
///
/// `region` is null or points to a handle that only this call uses.
#[unsafe(no_mangle)]
pub unsafe extern "C" fn lk_region_close(region: *mut *mut RegionHandle) -> c_int {
    // SAFETY: the caller's duty.
    code(unsafe { close(region, REGION) }.map(|_| LK_OK))
}

/// See the header.
///
/// # Safety
///
/// `region` is a handle that no call closes meanwhile; `out` is null or may be written.
#[unsafe(no_mangle)]
pub unsafe extern "C" fn lk_region_sender(region: *const RegionHandle, key: u64, out: *mut *mut Handle<Tx>) -> c_int {
    // SAFETY: the same duty.
    unsafe { take(region, out, SENDER, |region| region.sender(key).map_err(why_not_taken)) }
}

/// See the header.
///
/// # Safety
///
/// `region` is a handle that no call closes meanwhile; `out` is null or may be written.
#[unsafe(no_mangle)]
pub unsafe extern "C" fn lk_region_receiver(region: *const RegionHandle, key: u64, out: *mut *mut Handle<Rx>) -> c_int {
    // SAFETY: the same duty.
    unsafe { take(region, out, RECEIVER, |region| region.receiver(key).map_err(why_not_taken)) }
}

/// See the header.
///
/// # Safety
///
/// `region` is a handle that no call closes meanwhile; `out` is null or may be written.
#[unsafe(no_mangle)]
pub unsafe extern "C" fn lk_region_table(region: *const RegionHandle, key: u64, out: *mut *mut Handle<Numbers>) -> c_int {
    // SAFETY: the same duty.
    unsafe { take(region, out, TABLE, |region| region.table(key).map(Numbers::Processes).map_err(why_not_taken)) }
}

/// See the header.
///
/// # Safety
///
/// `region` is a handle that no call closes meanwhile; `out` is null or may be written.
#[unsafe(no_mangle)]
pub unsafe extern "C" fn lk_region_area(region: *const RegionHandle, key: u64, out: *mut *mut Handle<Caller>) -> c_int {
    // SAFETY: the same duty.
    unsafe { take(region, out, AREA, |region| region.area(key).map_err(why_not_taken).and_then(Caller::of_processes)) }
}

/// See the header.
///
/// # Safety
///
/// `region` is a handle that no call closes meanwhile; `out` is null or may be written.
#[unsafe(no_mangle)]
pub unsafe extern "C" fn lk_region_barrier(region: *const RegionHandle, key: u64, out: *mut *mut Handle<Barrier>) -> c_int {
    // SAFETY: the same duty.
    unsafe { take(region, out, BARRIER, |region| region.barrier(key).map_err(why_not_taken)) }
}
