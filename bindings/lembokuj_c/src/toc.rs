//! Tables of contents for C.

use crate::codes::*;
use crate::handle::{FROZEN, Handle, TOC, TOC_CHUNK, close, code, open, put, put_handle};
use lembokuj::{Toc, TocBuilder, TocChunk, TocError};
use std::ffi::c_int;

fn why(error: TocError) -> c_int {
    match error {
        TocError::Size => LK_BAD_SIZE,
        TocError::Full => LK_FULL,
        TocError::KeyThere => LK_KEY_THERE,
        TocError::OtherTable => LK_OTHER_AREA,
        _ => LK_NO_MEMORY,
    }
}

/// See the header.
///
/// # Safety
///
/// `out` is null or may be written.
#[unsafe(no_mangle)]
pub unsafe extern "C" fn lk_toc_new(bytes: u64, out: *mut *mut Handle<TocBuilder>) -> c_int {
    if out.is_null() {
        return LK_NULL;
    }
    match TocBuilder::new(bytes) {
        // SAFETY: the caller's duty.
        Ok(builder) => code(unsafe { put_handle(out, TOC, builder) }.map(|()| LK_OK)),
        Err(error) => why(error),
    }
}

/// See the header.
///
/// # Safety
///
/// `toc` is a handle that only this call uses; `out` is null or may be written.
#[unsafe(no_mangle)]
pub unsafe extern "C" fn lk_toc_allocate(toc: *mut Handle<TocBuilder>, bytes: u64, out: *mut *mut Handle<TocChunk>) -> c_int {
    if out.is_null() {
        return LK_NULL;
    }
    // SAFETY: the caller's duty.
    match unsafe { open(toc, TOC) }.map(|builder| builder.allocate(bytes)) {
        // SAFETY: the caller's duty.
        Ok(Ok(chunk)) => code(unsafe { put_handle(out, TOC_CHUNK, chunk) }.map(|()| LK_OK)),
        Ok(Err(error)) => why(error),
        Err(code) => code,
    }
}

/// See the header.
///
/// # Safety
///
/// `chunk` is a handle that only this call uses.
#[unsafe(no_mangle)]
pub unsafe extern "C" fn lk_toc_store(chunk: *mut Handle<TocChunk>, at: u64, value: u64) -> c_int {
    // SAFETY: the caller's duty.
    code(unsafe { open(chunk, TOC_CHUNK) }.map(|chunk| if chunk.store(at, value).is_ok() { LK_OK } else { LK_NO_WORD }))
}

/// See the header.
///
/// # Safety
///
/// `chunk` is null or points to a handle that only this call uses.
#[unsafe(no_mangle)]
pub unsafe extern "C" fn lk_toc_chunk_close(chunk: *mut *mut Handle<TocChunk>) -> c_int {
    // SAFETY: the caller's duty.
    code(unsafe { close(chunk, TOC_CHUNK) }.map(|_| LK_OK))
}

/// See the header.
///
/// # Safety
///
/// `toc` is a handle that only this call uses; `chunk` is null or points to one.
#[unsafe(no_mangle)]
pub unsafe extern "C" fn lk_toc_keep(toc: *mut Handle<TocBuilder>, key: u64, chunk: *mut *mut Handle<TocChunk>) -> c_int {
    // SAFETY: the caller's duty.
    let kept = unsafe {
        open(toc, TOC).and_then(|builder| match close(chunk, TOC_CHUNK)? {
            Some(chunk) => builder.keep(key, chunk).map_err(why),
            None => Err(LK_NULL),
        })
    };
    code(kept.map(|()| LK_OK))
}

/// See the header.
///
/// # Safety
///
/// `toc` is null or points to a handle that only this call uses; `out` is null or may be written.
#[unsafe(no_mangle)]
pub unsafe extern "C" fn lk_toc_freeze(toc: *mut *mut Handle<TocBuilder>, out: *mut *mut Handle<Toc>) -> c_int {
    if out.is_null() {
        return LK_NULL;
    }
    // SAFETY: the caller's duty.
    match unsafe { close(toc, TOC) } {
        // SAFETY: the caller's duty.
        Ok(Some(builder)) => code(builder.freeze().map_err(why).and_then(|toc| unsafe { put_handle(out, FROZEN, toc) }).map(|()| LK_OK)),
        Ok(None) => LK_NULL,
        Err(code) => code,
    }
}

/// See the header.
///
/// # Safety
///
/// `toc` is a handle that only this call uses; `out` is null or may be written.
#[unsafe(no_mangle)]
pub unsafe extern "C" fn lk_toc_share_again(toc: *mut Handle<Toc>, out: *mut *mut Handle<Toc>) -> c_int {
    if out.is_null() {
        return LK_NULL;
    }
    // SAFETY: the caller's duty.
    code(unsafe { open(toc, FROZEN).and_then(|toc| put_handle(out, FROZEN, toc.share())) }.map(|()| LK_OK))
}

/// See the header.
///
/// # Safety
///
/// `toc` is a handle that only this call uses; `out` is null or may be written.
#[unsafe(no_mangle)]
pub unsafe extern "C" fn lk_toc_words(toc: *mut Handle<Toc>, key: u64, out: *mut u64) -> c_int {
    // SAFETY: the caller's duty.
    code(unsafe { open(toc, FROZEN).and_then(|toc| put(out, toc.words(key).ok_or(LK_ABSENT)?)) }.map(|()| LK_OK))
}

/// See the header.
///
/// # Safety
///
/// `toc` is a handle that only this call uses; `out` is null or may be written.
#[unsafe(no_mangle)]
pub unsafe extern "C" fn lk_toc_load(toc: *mut Handle<Toc>, key: u64, at: u64, out: *mut u64) -> c_int {
    // SAFETY: the caller's duty.
    let loaded = unsafe { open(toc, FROZEN) }.and_then(|toc| match toc.words(key) {
        Some(_) => toc.load(key, at).ok_or(LK_NO_WORD),
        None => Err(LK_ABSENT),
    });
    // SAFETY: the caller's duty.
    code(loaded.and_then(|value| unsafe { put(out, value) }).map(|()| LK_OK))
}

/// See the header.
///
/// # Safety
///
/// `toc` is null or points to a handle that only this call uses.
#[unsafe(no_mangle)]
pub unsafe extern "C" fn lk_toc_close(toc: *mut *mut Handle<Toc>) -> c_int {
    // SAFETY: the caller's duty.
    code(unsafe { close(toc, FROZEN) }.map(|_| LK_OK))
}
