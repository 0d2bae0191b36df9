//! Barriers for C.

use crate::codes::*;
use crate::handle::{BARRIER, Handle, close, code, open, put, put_all, put_handle};
use crate::limit::{Limit, Wait};
use lembokuj::{Arrival, Barrier, BarrierError};
use std::convert::identity;
use std::ffi::c_int;

fn why(error: BarrierError) -> c_int {
    match error {
        BarrierError::Callers => LK_BAD_CALLERS,
        BarrierError::AlreadyIn => LK_ALREADY_IN,
        BarrierError::NotIn => LK_NOT_IN,
        BarrierError::Twice => LK_TWICE,
        BarrierError::OwnerDied => LK_OWNER_DIED,
        BarrierError::Damaged => LK_DAMAGED,
        _ => LK_NO_MEMORY,
    }
}

/// Reports an arrival to C.
///
/// # Safety
///
/// `phase` and `elected` are null or may be written.
unsafe fn told(arrival: Option<Arrival>, phase: *mut u64, elected: *mut c_int) -> c_int {
    let Some(arrival) = arrival else {
        return LK_WOULD_BLOCK;
    };
    // SAFETY: the places may be written.
    unsafe {
        if !phase.is_null() {
            phase.write(arrival.phase);
        }
        if !elected.is_null() {
            elected.write(c_int::from(arrival.is_elected));
        }
    }
    LK_OK
}

/// Makes a call of a barrier.
///
/// # Safety
///
/// `barrier` is a handle that only this call uses; `phase` and `elected` are null or may be written.
unsafe fn call(
    barrier: *mut Handle<Barrier>,
    phase: *mut u64,
    elected: *mut c_int,
    ask: impl FnOnce(&mut Barrier) -> Result<Option<Arrival>, BarrierError>,
) -> c_int {
    // SAFETY: the caller's duty.
    match unsafe { open(barrier, BARRIER) }.map(ask) {
        // SAFETY: the caller's duty.
        Ok(Ok(arrival)) => unsafe { told(arrival, phase, elected) },
        Ok(Err(error)) => why(error),
        Err(code) => code,
    }
}

/// See the header.
///
/// # Safety
///
/// `out` is null or has room for a handle of each caller.
#[unsafe(no_mangle)]
pub unsafe extern "C" fn lk_barrier_new(callers: u32, out: *mut *mut Handle<Barrier>) -> c_int {
    if out.is_null() {
        return LK_NULL;
    }
    match Barrier::new(callers) {
        // SAFETY: the caller's duty.
        Ok(handles) => code(unsafe { put_all(out, BARRIER, handles, identity) }.map(|()| LK_OK)),
        Err(error) => why(error),
    }
}

/// See the header.
///
/// # Safety
///
/// `barrier` is a handle that only this call uses; `phase` and `elected` are null or may be written.
#[unsafe(no_mangle)]
pub unsafe extern "C" fn lk_barrier_wait(barrier: *mut Handle<Barrier>, phase: *mut u64, elected: *mut c_int) -> c_int {
    // SAFETY: the same duty.
    unsafe { call(barrier, phase, elected, |barrier| barrier.wait().map(Some)) }
}

/// See the header.
///
/// # Safety
///
/// `barrier` is a handle that only this call uses; `phase` and `elected` are null or may be written; `limit` is null or a limit,
/// whose function may be called.
#[unsafe(no_mangle)]
pub unsafe extern "C" fn lk_barrier_wait_within(
    barrier: *mut Handle<Barrier>,
    limit: *const Limit,
    phase: *mut u64,
    elected: *mut c_int,
) -> c_int {
    // SAFETY: the caller's duty.
    let wait = unsafe { Limit::wait(limit) };
    // SAFETY: the same duty.
    unsafe {
        call(barrier, phase, elected, |barrier| match wait {
            Wait::Forever => barrier.wait().map(Some),
            Wait::Time(time) => barrier.wait_timeout(time),
            Wait::While(go_on) => barrier.wait_while(go_on),
        })
    }
}

/// See the header.
///
/// # Safety
///
/// `barrier` is a handle that no call closes meanwhile; `out` is null or may be written.
#[unsafe(no_mangle)]
pub unsafe extern "C" fn lk_barrier_handle(barrier: *const Handle<Barrier>, out: *mut *mut Handle<Barrier>) -> c_int {
    // SAFETY: the caller's duty; nothing of the handle is changed.
    code(unsafe {
        open(barrier.cast_mut(), BARRIER)
            .and_then(|barrier| barrier.handle().ok_or(LK_NO_HANDLE))
            .and_then(|barrier| put_handle(out, BARRIER, barrier))
            .map(|()| LK_OK)
    })
}

/// See the header.
///
/// # Safety
///
/// `barrier` is a handle that only this call uses; `phase` and `elected` are null or may be written.
#[unsafe(no_mangle)]
pub unsafe extern "C" fn lk_barrier_arrive(barrier: *mut Handle<Barrier>, phase: *mut u64, elected: *mut c_int) -> c_int {
    // SAFETY: the same duty.
    unsafe { call(barrier, phase, elected, Barrier::arrive) }
}

/// See the header.
///
/// # Safety
///
/// `barrier` is a handle that only this call uses; `phase` and `elected` are null or may be written.
#[unsafe(no_mangle)]
pub unsafe extern "C" fn lk_barrier_look(barrier: *mut Handle<Barrier>, phase: *mut u64, elected: *mut c_int) -> c_int {
    // SAFETY: the same duty.
    unsafe { call(barrier, phase, elected, Barrier::look) }
}

/// See the header.
///
/// # Safety
///
/// `barrier` is a handle that only this call uses.
#[unsafe(no_mangle)]
pub unsafe extern "C" fn lk_barrier_attach(barrier: *mut Handle<Barrier>) -> c_int {
    // SAFETY: the caller's duty.
    match unsafe { open(barrier, BARRIER) }.map(Barrier::attach) {
        Ok(Ok(_)) => LK_OK,
        Ok(Err(error)) => why(error),
        Err(code) => code,
    }
}

/// See the header.
///
/// # Safety
///
/// `barrier` is a handle that only this call uses; `last` is null or may be written.
#[unsafe(no_mangle)]
pub unsafe extern "C" fn lk_barrier_detach(barrier: *mut Handle<Barrier>, last: *mut c_int) -> c_int {
    // SAFETY: the caller's duty.
    match unsafe { open(barrier, BARRIER) }.map(Barrier::detach) {
        Ok(Ok(_)) if last.is_null() => LK_OK,
        // SAFETY: the place may be written.
        Ok(Ok(is_last)) => code(unsafe { put(last, c_int::from(is_last)) }.map(|()| LK_OK)),
        Ok(Err(error)) => why(error),
        Err(code) => code,
    }
}

/// See the header.
///
/// # Safety
///
/// `barrier` is null or points to a handle that only this call uses.
#[unsafe(no_mangle)]
pub unsafe extern "C" fn lk_barrier_close(barrier: *mut *mut Handle<Barrier>) -> c_int {
    // SAFETY: the caller's duty.
    code(unsafe { close(barrier, BARRIER) }.map(|_| LK_OK))
}
