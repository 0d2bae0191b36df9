//! Hash tables from numbers to numbers for C.

use crate::codes::*;
use crate::handle::{Handle, TABLE, close, code, open, put, put_all, put_handle};
#[cfg(processes)]
use lembokuj::processes;
use lembokuj::{Table, TableError, table_pages};
use std::ffi::{c_int, c_void};

/// A caller of a table that C has.
#[cfg_attr(processes, expect(clippy::large_enum_variant, reason = "a handle of C's is on the heap anyway"))]
pub enum Numbers {
    /// Of one in memory of this process.
    Threads(Table<u64, u64>),
    /// Of one in a region that processes share.
    #[cfg(processes)]
    Processes(processes::Table),
}

/// A call of a table in a region, as its answer is a code of C's.
#[cfg(processes)]
fn coded<T>(answer: Result<T, TableError>) -> Result<T, c_int> {
    answer.map_err(why_no_table)
}

impl Numbers {
    fn handle(&self) -> Option<Numbers> {
        match self {
            Numbers::Threads(table) => table.handle().map(Numbers::Threads),
            #[cfg(processes)]
            Numbers::Processes(table) => table.handle().map(Numbers::Processes),
        }
    }

    fn get(&mut self, key: u64) -> Result<Option<u64>, c_int> {
        match self {
            Numbers::Threads(table) => Ok(table.get(&key)),
            #[cfg(processes)]
            Numbers::Processes(table) => coded(table.get(key)),
        }
    }

    fn insert(&mut self, key: u64, value: u64) -> Result<Option<u64>, c_int> {
        match self {
            Numbers::Threads(table) => table.insert(&key, value).map_err(|_| LK_NO_SPACE),
            #[cfg(processes)]
            Numbers::Processes(table) => coded(table.insert(key, value)),
        }
    }

    fn add(&mut self, key: u64, more: u64) -> Result<Option<u64>, c_int> {
        match self {
            Numbers::Threads(table) => {
                let sum = |old: Option<&u64>, more: &u64| Some(old.unwrap_or(&0).wrapping_add(*more));
                table.update_with(&key, more, sum).map_err(|_| LK_NO_SPACE)
            }
            #[cfg(processes)]
            Numbers::Processes(table) => coded(table.add(key, more)),
        }
    }

    fn remove(&mut self, key: u64) -> Result<Option<u64>, c_int> {
        match self {
            Numbers::Threads(table) => Ok(table.remove(&key)),
            #[cfg(processes)]
            Numbers::Processes(table) => coded(table.remove(key)),
        }
    }

    fn count(&mut self) -> Result<u64, c_int> {
        match self {
            Numbers::Threads(table) => Ok(table.count()),
            #[cfg(processes)]
            Numbers::Processes(table) => coded(table.count()),
        }
    }

    fn entries(&mut self) -> Result<Vec<(u64, u64)>, c_int> {
        match self {
            Numbers::Threads(table) => table.entries().map_err(|_| LK_NO_MEMORY),
            #[cfg(processes)]
            Numbers::Processes(table) => coded(table.entries()),
        }
    }
}

/// See the header.
#[unsafe(no_mangle)]
pub extern "C" fn lk_table_pages(keys: u64) -> u32 {
    table_pages(keys, 1, 1)
}

/// See the header.
///
/// # Safety
///
/// `out` is null or has room for a handle of each caller.
#[unsafe(no_mangle)]
pub unsafe extern "C" fn lk_table_new(pages: u32, callers: u32, out: *mut *mut Handle<Numbers>) -> c_int {
    if out.is_null() {
        return LK_NULL;
    }
    match Table::with_pages(pages, callers) {
        // SAFETY: the caller's duty.
        Ok(handles) => code(unsafe { put_all(out, TABLE, handles, Numbers::Threads) }.map(|()| LK_OK)),
        Err(why) => why_no_table(why),
    }
}

/// See the header.
///
/// # Safety
///
/// `out` is null or may be written.
#[unsafe(no_mangle)]
pub unsafe extern "C" fn lk_table_new_with_seed(
    pages: u32,
    callers: u32,
    seed: u64,
    out: *mut *mut Handle<Numbers>,
) -> c_int {
    match Table::open_pages_with_seed(pages, callers, seed) {
        // SAFETY: the caller's duty.
        Ok(table) => code(unsafe { put_handle(out, TABLE, Numbers::Threads(table)) }.map(|()| LK_OK)),
        Err(why) => why_no_table(why),
    }
}

/// The code of why there is no table.
pub(crate) fn why_no_table(why: TableError) -> c_int {
    match why {
        TableError::Pages | TableError::Words => LK_BAD_SIZE,
        TableError::Callers => LK_BAD_CALLERS,
        TableError::NoSpace => LK_NO_SPACE,
        TableError::OwnerDied => LK_OWNER_DIED,
        TableError::Damaged => LK_DAMAGED,
        _ => LK_NO_MEMORY,
    }
}

/// See the header.
///
/// # Safety
///
/// `table` is a handle that no call closes meanwhile; `out` is null or may be written.
#[unsafe(no_mangle)]
pub unsafe extern "C" fn lk_table_handle(table: *const Handle<Numbers>, out: *mut *mut Handle<Numbers>) -> c_int {
    // SAFETY: the caller's duty; nothing of the handle is changed.
    code(unsafe {
        open(table.cast_mut(), TABLE)
            .and_then(|table| table.handle().ok_or(LK_NO_HANDLE))
            .and_then(|table| put_handle(out, TABLE, table))
            .map(|()| LK_OK)
    })
}

/// Makes a call of a table, and gives C the value before it.
///
/// # Safety
///
/// `table` is a handle that only this call uses; `old` is null or may be written.
unsafe fn call(
    table: *mut Handle<Numbers>,
    old: *mut u64,
    ask: impl FnOnce(&mut Numbers) -> Result<Option<u64>, c_int>,
) -> c_int {
    // SAFETY: the caller's duty.
    let table = match unsafe { open(table, TABLE) } {
        Ok(table) => table,
        Err(code) => return code,
    };
    match ask(table) {
        Ok(Some(_)) if old.is_null() => LK_OK,
        // SAFETY: the place may be written.
        Ok(Some(value)) => code(unsafe { put(old, value) }.map(|()| LK_OK)),
        Ok(None) => LK_ABSENT,
        Err(code) => code,
    }
}

/// See the header.
///
/// # Safety
///
/// `table` is a handle that only this call uses; `old` is null or may be written.
#[unsafe(no_mangle)]
pub unsafe extern "C" fn lk_table_put(table: *mut Handle<Numbers>, key: u64, value: u64, old: *mut u64) -> c_int {
    // SAFETY: the same duty.
    unsafe { call(table, old, |table| table.insert(key, value)) }
}

/// See the header.
///
/// # Safety
///
/// `table` is a handle that only this call uses; `old` is null or may be written.
#[unsafe(no_mangle)]
pub unsafe extern "C" fn lk_table_add(table: *mut Handle<Numbers>, key: u64, more: u64, old: *mut u64) -> c_int {
    // SAFETY: the same duty.
    unsafe { call(table, old, |table| table.add(key, more)) }
}

/// See the header.
///
/// # Safety
///
/// `table` is a handle that only this call uses; `value` is null or may be written.
#[unsafe(no_mangle)]
pub unsafe extern "C" fn lk_table_get(table: *mut Handle<Numbers>, key: u64, value: *mut u64) -> c_int {
    // SAFETY: the same duty.
    unsafe { call(table, value, |table| table.get(key)) }
}

/// See the header.
///
/// # Safety
///
/// `table` is a handle that only this call uses; `old` is null or may be written.
#[unsafe(no_mangle)]
pub unsafe extern "C" fn lk_table_delete(table: *mut Handle<Numbers>, key: u64, old: *mut u64) -> c_int {
    // SAFETY: the same duty.
    unsafe { call(table, old, |table| table.remove(key)) }
}

/// See the header.
///
/// # Safety
///
/// `table` is a handle that only this call uses; `out` is null or may be written.
#[unsafe(no_mangle)]
pub unsafe extern "C" fn lk_table_count(table: *mut Handle<Numbers>, out: *mut u64) -> c_int {
    // SAFETY: the caller's duty.
    code(unsafe { open(table, TABLE).and_then(Numbers::count).and_then(|count| put(out, count)).map(|()| LK_OK) })
}

/// See the header.
///
/// # Safety
///
/// `table` is a handle that only this call uses; `each` may be called with `with`.
#[unsafe(no_mangle)]
pub unsafe extern "C" fn lk_table_each(
    table: *mut Handle<Numbers>,
    each: Option<unsafe extern "C" fn(u64, u64, *mut c_void)>,
    with: *mut c_void,
) -> c_int {
    let Some(each) = each else {
        return LK_NULL;
    };
    // SAFETY: the caller's duty.
    let entries = match unsafe { open(table, TABLE) }.and_then(Numbers::entries) {
        Ok(entries) => entries,
        Err(code) => return code,
    };
    for (key, value) in entries {
        // SAFETY: the caller's duty.
        unsafe { each(key, value, with) };
    }
    LK_OK
}

/// See the header.
///
/// # Safety
///
/// `table` is null or points to a handle that only this call uses.
#[unsafe(no_mangle)]
pub unsafe extern "C" fn lk_table_close(table: *mut *mut Handle<Numbers>) -> c_int {
    // SAFETY: the caller's duty.
    code(unsafe { close(table, TABLE) }.map(|_| LK_OK))
}
