//! Hash tables whose keys and values have many words, for C.

use crate::codes::*;
use crate::handle::{Handle, WORD_TABLE, close, code, open, put, put_handle};
use crate::queue::lent;
use crate::table::why_no_table;
use lembokuj::{Swapped, WordTable};
use std::ffi::{c_int, c_void};

/// The most words of a value.
const MOST_VALUE_WORDS: usize = 256;

/// See the header.
#[unsafe(no_mangle)]
pub extern "C" fn lk_table_pages_words(keys: u64, key_words: u32, value_words: u32) -> u32 {
    WordTable::pages(keys, (key_words as usize).min(64), (value_words as usize).min(MOST_VALUE_WORDS))
}

/// See the header.
///
/// # Safety
///
/// `out` is null or may be written.
#[unsafe(no_mangle)]
pub unsafe extern "C" fn lk_table_new_words(
    pages: u32,
    callers: u32,
    key_words: u32,
    value_words: u32,
    out: *mut *mut Handle<WordTable>,
) -> c_int {
    // SAFETY: the caller's duty.
    unsafe { lk_table_new_words_with_seed(pages, callers, key_words, value_words, 0, out) }
}

/// See the header.
///
/// # Safety
///
/// `out` is null or may be written.
#[unsafe(no_mangle)]
pub unsafe extern "C" fn lk_table_new_words_with_seed(
    pages: u32,
    callers: u32,
    key_words: u32,
    value_words: u32,
    seed: u64,
    out: *mut *mut Handle<WordTable>,
) -> c_int {
    match WordTable::open_with_seed(pages, callers, key_words as usize, value_words as usize, seed) {
        // SAFETY: the caller's duty.
        Ok(table) => code(unsafe { put_handle(out, WORD_TABLE, table) }.map(|()| LK_OK)),
        Err(why) => why_no_table(why),
    }
}

/// See the header.
///
/// # Safety
///
/// `table` is a handle that no call closes meanwhile; `out` is null or may be written.
#[unsafe(no_mangle)]
pub unsafe extern "C" fn lk_words_handle(table: *const Handle<WordTable>, out: *mut *mut Handle<WordTable>) -> c_int {
    // SAFETY: the caller's duty; nothing of the handle is changed.
    code(unsafe {
        open(table.cast_mut(), WORD_TABLE)
            .and_then(|table| table.handle().map_err(|_| LK_NO_MEMORY)?.ok_or(LK_NO_HANDLE))
            .and_then(|table| put_handle(out, WORD_TABLE, table))
            .map(|()| LK_OK)
    })
}

/// Makes a call of a table with a key and a place for a value.
///
/// # Safety
///
/// `table` is a handle that only this call uses; `key` is null or has the words of a key, `old` those of a value, and may be
/// written.
unsafe fn call(
    table: *mut Handle<WordTable>,
    key: *const u64,
    old: *mut u64,
    ask: impl FnOnce(&mut WordTable, &[u64], &mut [u64]) -> Result<c_int, c_int>,
) -> c_int {
    // SAFETY: the caller's duty.
    let table = match unsafe { open(table, WORD_TABLE) } {
        Ok(table) => table,
        Err(code) => return code,
    };
    let (key_words, value_words) = table.words();
    // SAFETY: the caller's duty.
    let key = match unsafe { lent(key, key_words) } {
        Ok(key) => key,
        Err(code) => return code,
    };
    // The value comes to a place of our own: C's may be the one of the value that it puts.
    let mut found = [0; MOST_VALUE_WORDS];
    let answer = ask(table, key, &mut found[..value_words]);
    if matches!(answer, Ok(LK_OK | LK_OTHER_VALUE)) && !old.is_null() {
        // SAFETY: the place has the words of a value, and is no part of ours.
        unsafe { std::ptr::copy_nonoverlapping(found.as_ptr(), old, value_words) };
    }
    code(answer)
}

fn was_there(there: bool) -> c_int {
    if there { LK_OK } else { LK_ABSENT }
}

/// See the header.
///
/// # Safety
///
/// `table` is a handle that only this call uses; `key` and `value` are null or have the words of a key and a value.
#[unsafe(no_mangle)]
pub unsafe extern "C" fn lk_words_get(table: *mut Handle<WordTable>, key: *const u64, value: *mut u64) -> c_int {
    // SAFETY: the same duty.
    unsafe { call(table, key, value, |table, key, found| Ok(was_there(table.get(key, found)))) }
}

/// See the header.
///
/// # Safety
///
/// `table` is a handle that only this call uses; `key`, `value` and `old` are null or have the words of a key and of values.
#[unsafe(no_mangle)]
pub unsafe extern "C" fn lk_words_put(
    table: *mut Handle<WordTable>,
    key: *const u64,
    value: *const u64,
    old: *mut u64,
) -> c_int {
    // SAFETY: the same duty.
    unsafe {
        call(table, key, old, |table, key, found| {
            let value = lent(value, found.len())?;
            table.put(key, value, found).map(was_there).map_err(|_| LK_NO_SPACE)
        })
    }
}

/// See the header.
///
/// # Safety
///
/// `table` is a handle that only this call uses; `key` and `old` are null or have the words of a key and a value.
#[unsafe(no_mangle)]
pub unsafe extern "C" fn lk_words_delete(table: *mut Handle<WordTable>, key: *const u64, old: *mut u64) -> c_int {
    // SAFETY: the same duty.
    unsafe { call(table, key, old, |table, key, found| Ok(was_there(table.remove(key, found)))) }
}

/// See the header.
///
/// # Safety
///
/// `table` is a handle that only this call uses; `key` is null or has the words of a key, each of the others those of a value.
#[unsafe(no_mangle)]
pub unsafe extern "C" fn lk_words_compare_and_put(
    table: *mut Handle<WordTable>,
    key: *const u64,
    expected: *const u64,
    value: *const u64,
    found: *mut u64,
) -> c_int {
    // SAFETY: the same duty.
    unsafe {
        call(table, key, found, |table, key, found| {
            let given = |words: *const u64| {
                if words.is_null() { Ok(None) } else { lent(words, found.len()).map(Some) }
            };
            let (expected, new) = (given(expected)?, given(value)?);
            match table.compare_and_put(key, expected, new, found) {
                Ok(Swapped::Done) => Ok(LK_OK),
                Ok(Swapped::Other) => Ok(LK_OTHER_VALUE),
                Ok(Swapped::Absent) => Ok(LK_ABSENT),
                Err(_) => Err(LK_NO_SPACE),
            }
        })
    }
}

/// See the header.
///
/// # Safety
///
/// `table` is a handle that only this call uses; `out` is null or may be written.
#[unsafe(no_mangle)]
pub unsafe extern "C" fn lk_words_count(table: *mut Handle<WordTable>, out: *mut u64) -> c_int {
    // SAFETY: the caller's duty.
    code(unsafe { open(table, WORD_TABLE).and_then(|table| put(out, table.count())).map(|()| LK_OK) })
}

/// See the header.
///
/// # Safety
///
/// `table` is a handle that only this call uses; `each` may be called with `with`.
#[unsafe(no_mangle)]
pub unsafe extern "C" fn lk_words_each(
    table: *mut Handle<WordTable>,
    each: Option<unsafe extern "C" fn(*const u64, *const u64, *mut c_void)>,
    with: *mut c_void,
) -> c_int {
    let Some(each) = each else {
        return LK_NULL;
    };
    // SAFETY: the caller's duty.
    let table = match unsafe { open(table, WORD_TABLE) } {
        Ok(table) => table,
        Err(code) => return code,
    };
    // SAFETY: the caller's duty.
    let done = table.for_each(|key, value| unsafe { each(key.as_ptr(), value.as_ptr(), with) });
    if done.is_ok() { LK_OK } else { LK_NO_MEMORY }
}

/// See the header.
///
/// # Safety
///
/// `table` is null or points to a handle that only this call uses.
#[unsafe(no_mangle)]
pub unsafe extern "C" fn lk_words_close(table: *mut *mut Handle<WordTable>) -> c_int {
    // SAFETY: the caller's duty.
    code(unsafe { close(table, WORD_TABLE) }.map(|_| LK_OK))
}
