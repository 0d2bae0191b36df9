//! Areas and their chunks for C.
//!
//! The memory of a chunk's handle is kept by the area's handle after the chunk was freed, and used again for a later one,
//! the oldest first. So a chunk that was freed is told for a while.

use crate::codes::*;
use crate::handle::{AREA, CHUNK, Handle, close, code, open, put, put_all, put_handle, refill, release, retire};
#[cfg(processes)]
use lembokuj::processes;
use lembokuj::{Area, AreaError, Chunk, NoWord};
use std::collections::VecDeque;
use std::convert::identity;
use std::ffi::{c_int, c_void};

/// How many freed handles are kept before the oldest is used again.
const KEPT: usize = 64;

/// The handle of a chunk: none once it was freed.
pub type ChunkHandle = Handle<Option<Held>>;

/// A chunk that C has.
pub enum Held {
    /// Of an area in memory of this process.
    Threads(Chunk),
    /// Of one in a region that processes share.
    #[cfg(processes)]
    Processes(processes::Chunk),
}

/// Makes a call of a chunk, wherever its area is.
macro_rules! held {
    ($held:expr, $chunk:ident => $call:expr) => {
        match $held {
            Held::Threads($chunk) => $call,
            #[cfg(processes)]
            Held::Processes($chunk) => $call,
        }
    };
}

/// The place of a caller's area.
enum Home {
    Threads(Area),
    #[cfg(processes)]
    Processes(processes::Area),
}

impl Home {
    fn handle(&self) -> Option<Home> {
        match self {
            Home::Threads(area) => area.handle().map(Home::Threads),
            #[cfg(processes)]
            Home::Processes(area) => area.handle().map(Home::Processes),
        }
    }

    fn alloc(&mut self, bytes: u64, clear: bool) -> Result<Held, c_int> {
        match self {
            Home::Threads(area) => {
                let granted = if clear { area.alloc_zeroed(bytes) } else { area.alloc(bytes) };
                granted.map(Held::Threads).map_err(|_| LK_NO_SPACE)
            }
            #[cfg(processes)]
            Home::Processes(area) => {
                let granted = if clear { area.alloc_zeroed(bytes) } else { area.alloc(bytes) };
                granted.map(Held::Processes).map_err(why_no_area)
            }
        }
    }

    fn is_home_of(&self, chunk: &Held) -> bool {
        match (self, chunk) {
            (Home::Threads(area), Held::Threads(chunk)) => area.is_home_of(chunk),
            #[cfg(processes)]
            (Home::Processes(area), Held::Processes(chunk)) => area.is_home_of(chunk),
            #[cfg(processes)]
            _ => false,
        }
    }

    fn free(&mut self, chunk: Held) -> Result<(), c_int> {
        match (self, chunk) {
            (Home::Threads(area), Held::Threads(chunk)) => {
                area.free(chunk);
                Ok(())
            }
            #[cfg(processes)]
            (Home::Processes(area), Held::Processes(chunk)) => area.free(chunk).map_err(why_no_area),
            #[cfg(processes)]
            _ => Err(LK_OTHER_AREA),
        }
    }
}

/// One caller of an area, with the handles of the chunks that it freed.
pub struct Caller {
    area: Home,
    freed: VecDeque<*mut ChunkHandle>,
}

impl Caller {
    fn new(area: Home) -> Result<Caller, c_int> {
        let mut freed = VecDeque::new();
        freed.try_reserve_exact(KEPT).map_err(|_| LK_NO_MEMORY)?;
        Ok(Caller { area, freed })
    }

    /// The caller of an area in a region.
    #[cfg(processes)]
    pub(crate) fn of_processes(area: processes::Area) -> Result<Caller, c_int> {
        Caller::new(Home::Processes(area))
    }

    /// A handle of a chunk.
    fn hand_out(&mut self, chunk: Held) -> Result<*mut ChunkHandle, c_int> {
        if self.freed.len() == KEPT
            && let Some(handle) = self.freed.pop_front()
        {
            // SAFETY: it was retired, and is in no other list.
            unsafe { refill(handle, CHUNK, chunk) };
            return Ok(handle);
        }
        Handle::new(CHUNK, Some(chunk))
    }

    /// Keeps a handle that was retired; the oldest goes if there are enough.
    fn keep(&mut self, handle: *mut ChunkHandle) {
        if self.freed.len() == KEPT
            && let Some(oldest) = self.freed.pop_front()
        {
            // SAFETY: it was retired, and the header says that nobody uses it after that number of frees.
            unsafe { release(oldest) };
        }
        self.freed.push_back(handle);
    }
}

impl Drop for Caller {
    fn drop(&mut self) {
        for handle in self.freed.drain(..) {
            // SAFETY: it was retired, and the header says that nobody uses it after this.
            unsafe { release(handle) };
        }
    }
}

/// A caller for each handle.
fn callers_of(handles: Vec<Area>) -> Result<Vec<Caller>, c_int> {
    let mut callers = Vec::new();
    callers.try_reserve_exact(handles.len()).map_err(|_| LK_NO_MEMORY)?;
    for handle in handles {
        callers.push(Caller::new(Home::Threads(handle))?);
    }
    Ok(callers)
}

/// The code of why there is no area.
pub(crate) fn why_no_area(why: AreaError) -> c_int {
    match why {
        AreaError::Pages => LK_BAD_SIZE,
        AreaError::Callers => LK_BAD_CALLERS,
        AreaError::NoSpace => LK_NO_SPACE,
        AreaError::Stranger => LK_STRANGER,
        AreaError::OwnerDied => LK_OWNER_DIED,
        AreaError::Damaged => LK_DAMAGED,
        _ => LK_NO_MEMORY,
    }
}

/// See the header.
///
/// # Safety
///
/// `out` is null or has room for a handle of each caller.
#[unsafe(no_mangle)]
pub unsafe extern "C" fn lk_area_new(pages: u32, callers: u32, out: *mut *mut Handle<Caller>) -> c_int {
    if out.is_null() {
        return LK_NULL;
    }
    match Area::new(pages, callers) {
        Ok(handles) => code(callers_of(handles).and_then(|callers| {
            // SAFETY: the caller's duty.
            unsafe { put_all(out, AREA, callers, identity) }.map(|()| LK_OK)
        })),
        Err(why) => why_no_area(why),
    }
}

/// See the header.
///
/// # Safety
///
/// `area` is a handle that no call closes meanwhile; `out` is null or may be written.
#[unsafe(no_mangle)]
pub unsafe extern "C" fn lk_area_handle(area: *const Handle<Caller>, out: *mut *mut Handle<Caller>) -> c_int {
    // SAFETY: the caller's duty; nothing of the handle is changed.
    code(unsafe {
        open(area.cast_mut(), AREA)
            .and_then(|caller| caller.area.handle().ok_or(LK_NO_HANDLE))
            .and_then(Caller::new)
            .and_then(|caller| put_handle(out, AREA, caller))
            .map(|()| LK_OK)
    })
}

/// Makes a chunk.
///
/// # Safety
///
/// `area` is a handle that only this call uses; `out` is null or may be written.
unsafe fn alloc(area: *mut Handle<Caller>, bytes: u64, clear: bool, out: *mut *mut ChunkHandle) -> Result<c_int, c_int> {
    if out.is_null() {
        return Err(LK_NULL);
    }
    // SAFETY: the caller's duty.
    let caller = unsafe { open(area, AREA) }?;
    let chunk = caller.area.alloc(bytes, clear)?;
    let handle = caller.hand_out(chunk)?;
    // SAFETY: the place may be written.
    unsafe { out.write(handle) };
    Ok(LK_OK)
}

/// See the header.
///
/// # Safety
///
/// `area` is a handle that only this call uses; `out` is null or may be written.
#[unsafe(no_mangle)]
pub unsafe extern "C" fn lk_area_alloc(area: *mut Handle<Caller>, bytes: u64, out: *mut *mut ChunkHandle) -> c_int {
    // SAFETY: the same duty.
    code(unsafe { alloc(area, bytes, false, out) })
}

/// See the header.
///
/// # Safety
///
/// `area` is a handle that only this call uses; `out` is null or may be written.
#[unsafe(no_mangle)]
pub unsafe extern "C" fn lk_area_alloc_zeroed(area: *mut Handle<Caller>, bytes: u64, out: *mut *mut ChunkHandle) -> c_int {
    // SAFETY: the same duty.
    code(unsafe { alloc(area, bytes, true, out) })
}

/// See the header.
///
/// # Safety
///
/// `area` is a handle that only this call uses; `chunk` is null or points to one.
#[unsafe(no_mangle)]
pub unsafe extern "C" fn lk_area_free(area: *mut Handle<Caller>, chunk: *mut *mut ChunkHandle) -> c_int {
    // SAFETY: the caller's duty.
    code(unsafe { open(area, AREA).and_then(|caller| free(caller, chunk)) })
}

/// Takes back the chunk at a place.
///
/// # Safety
///
/// As for `lk_area_free`.
unsafe fn free(caller: &mut Caller, place: *mut *mut ChunkHandle) -> Result<c_int, c_int> {
    if place.is_null() {
        return Err(LK_NULL);
    }
    // SAFETY: the place may be read, and what stands there is null or a handle that only this call uses.
    let handle = unsafe { *place };
    let chunk = unsafe { open(handle, CHUNK) }?.as_ref().ok_or(LK_FREED)?;
    if !caller.area.is_home_of(chunk) {
        return Err(LK_OTHER_AREA);
    }
    // SAFETY: the same; from here on only the list has it.
    let chunk = unsafe { retire(handle, CHUNK) }?;
    let freed = caller.area.free(chunk);
    caller.keep(handle);
    // SAFETY: the place may be written.
    unsafe { place.write(std::ptr::null_mut()) };
    freed.map(|()| LK_OK)
}

/// See the header.
///
/// # Safety
///
/// `chunk` is null or points to a handle that only this call uses; `ticket` is null or may be written.
#[cfg(processes)]
#[unsafe(no_mangle)]
pub unsafe extern "C" fn lk_chunk_post(chunk: *mut *mut ChunkHandle, ticket: *mut processes::Ticket) -> c_int {
    if chunk.is_null() || ticket.is_null() {
        return LK_NULL;
    }
    // SAFETY: the caller's duty.
    code(unsafe { post(chunk) }.and_then(|posted| unsafe { put(ticket, posted) }.map(|()| LK_OK)))
}

/// Posts the chunk at a place.
///
/// # Safety
///
/// The place points to null or a handle that only this call uses.
#[cfg(processes)]
unsafe fn post(place: *mut *mut ChunkHandle) -> Result<processes::Ticket, c_int> {
    // SAFETY: the caller's duty.
    match unsafe { open(*place, CHUNK) }?.as_ref().ok_or(LK_FREED)? {
        Held::Threads(_) => return Err(LK_KIND),
        Held::Processes(_) => {}
    }
    // SAFETY: the caller's duty.
    match unsafe { close(place, CHUNK) }?.flatten() {
        Some(Held::Processes(chunk)) => Ok(chunk.post()),
        _ => Err(LK_FREED),
    }
}

/// See the header.
///
/// # Safety
///
/// `area` is a handle that only this call uses; `ticket` is null or may be read; `out` is null or may be written.
#[cfg(processes)]
#[unsafe(no_mangle)]
pub unsafe extern "C" fn lk_area_fetch(
    area: *mut Handle<Caller>,
    ticket: *const processes::Ticket,
    out: *mut *mut ChunkHandle,
) -> c_int {
    if ticket.is_null() || out.is_null() {
        return LK_NULL;
    }
    // SAFETY: the caller's duty.
    code(unsafe {
        open(area, AREA)
            .and_then(|caller| {
                let Home::Processes(area) = &mut caller.area else { return Err(LK_KIND) };
                let chunk = area.fetch(*ticket).map_err(why_no_area)?;
                caller.hand_out(Held::Processes(chunk))
            })
            .and_then(|handle| put(out, handle).map(|()| LK_OK))
    })
}

/// See the header.
///
/// # Safety
///
/// `chunk` is null or points to a handle that only this call uses.
#[unsafe(no_mangle)]
pub unsafe extern "C" fn lk_chunk_close(chunk: *mut *mut ChunkHandle) -> c_int {
    // SAFETY: the caller's duty.
    code(unsafe { close(chunk, CHUNK) }.map(|_| LK_OK))
}

/// See the header.
///
/// # Safety
///
/// `area` is null or points to a handle that only this call uses.
#[unsafe(no_mangle)]
pub unsafe extern "C" fn lk_area_close(area: *mut *mut Handle<Caller>) -> c_int {
    // SAFETY: the caller's duty.
    code(unsafe { close(area, AREA) }.map(|_| LK_OK))
}

/// See the header.
///
/// # Safety
///
/// `chunk` is a handle that only this call uses; `out` is null or may be written.
#[unsafe(no_mangle)]
pub unsafe extern "C" fn lk_chunk_words(chunk: *const ChunkHandle, out: *mut u64) -> c_int {
    // SAFETY: the caller's duty.
    code(unsafe {
        open(chunk.cast_mut(), CHUNK)
            .and_then(|chunk| chunk.as_ref().ok_or(LK_FREED))
            .and_then(|chunk| put(out, held!(chunk, chunk => chunk.words())))
            .map(|()| LK_OK)
    })
}

/// See the header.
///
/// # Safety
///
/// `chunk` is a handle that only this call uses; `out` is null or may be written.
#[unsafe(no_mangle)]
pub unsafe extern "C" fn lk_chunk_load(chunk: *mut ChunkHandle, at: u64, out: *mut u64) -> c_int {
    // SAFETY: the caller's duty.
    code(unsafe {
        open(chunk, CHUNK)
            .and_then(|chunk| chunk.as_mut().ok_or(LK_FREED))
            .and_then(|chunk| held!(chunk, chunk => chunk.load(at)).ok_or(LK_NO_WORD))
            .and_then(|value| put(out, value))
            .map(|()| LK_OK)
    })
}

/// See the header.
///
/// # Safety
///
/// `chunk` is a handle that only this call uses; `memory` and `bytes` are null or may be written.
#[unsafe(no_mangle)]
pub unsafe extern "C" fn lk_chunk_memory(chunk: *mut ChunkHandle, memory: *mut *mut c_void, bytes: *mut usize) -> c_int {
    if memory.is_null() || bytes.is_null() {
        return LK_NULL;
    }
    // SAFETY: the caller's duty. The bytes are the chunk's until it is given back, and no call keeps a reference to them.
    code(unsafe {
        open(chunk, CHUNK).and_then(|chunk| chunk.as_mut().ok_or(LK_FREED)).map(|chunk| {
            let all = held!(chunk, chunk => chunk.as_bytes_mut());
            bytes.write(all.len());
            memory.write(all.as_mut_ptr().cast());
            LK_OK
        })
    })
}

/// Makes a call of a chunk.
///
/// # Safety
///
/// `chunk` is a handle that only this call uses.
unsafe fn on_chunk(chunk: *mut ChunkHandle, call: impl FnOnce(&mut Held) -> Result<(), NoWord>) -> c_int {
    // SAFETY: the caller's duty.
    let chunk = unsafe { open(chunk, CHUNK) }.and_then(|chunk| chunk.as_mut().ok_or(LK_FREED));
    code(chunk.and_then(|chunk| call(chunk).map(|()| LK_OK).map_err(|NoWord| LK_NO_WORD)))
}

/// See the header.
///
/// # Safety
///
/// `chunk` is a handle that only this call uses.
#[unsafe(no_mangle)]
pub unsafe extern "C" fn lk_chunk_store(chunk: *mut ChunkHandle, at: u64, value: u64) -> c_int {
    // SAFETY: the same duty.
    unsafe { on_chunk(chunk, |held| held!(held, chunk => chunk.store(at, value))) }
}

/// The place for `count` items that C lends for a call.
///
/// # Safety
///
/// The place is null or has these items, which this call may change, and nobody else reads or changes meanwhile.
unsafe fn lent_mut<'a, T>(place: *mut T, count: usize) -> Result<&'a mut [T], c_int> {
    match (count, place.is_null()) {
        (0, _) => Ok(&mut []),
        (_, true) => Err(LK_NULL),
        // SAFETY: the caller's duty.
        (_, false) => Ok(unsafe { std::slice::from_raw_parts_mut(place, count) }),
    }
}

/// See the header.
///
/// # Safety
///
/// `chunk` is a handle that only this call uses; `words` is null or has `count` of them.
#[unsafe(no_mangle)]
pub unsafe extern "C" fn lk_chunk_read(chunk: *mut ChunkHandle, at: u64, words: *mut u64, count: usize) -> c_int {
    // SAFETY: the caller's duty.
    match unsafe { lent_mut(words, count) } {
        // SAFETY: the caller's duty.
        Ok(words) => unsafe { on_chunk(chunk, |held| held!(held, chunk => chunk.read(at, words))) },
        Err(code) => code,
    }
}

/// See the header.
///
/// # Safety
///
/// `chunk` is a handle that only this call uses; `words` is null or has `count` of them.
#[unsafe(no_mangle)]
pub unsafe extern "C" fn lk_chunk_write(chunk: *mut ChunkHandle, at: u64, words: *const u64, count: usize) -> c_int {
    // SAFETY: the caller's duty.
    match unsafe { crate::queue::lent(words, count) } {
        // SAFETY: the caller's duty.
        Ok(words) => unsafe { on_chunk(chunk, |held| held!(held, chunk => chunk.write(at, words))) },
        Err(code) => code,
    }
}

/// See the header.
///
/// # Safety
///
/// `chunk` is a handle that only this call uses; `bytes` is null or has `count` of them.
#[unsafe(no_mangle)]
pub unsafe extern "C" fn lk_chunk_read_bytes(chunk: *mut ChunkHandle, at: u64, bytes: *mut c_void, count: usize) -> c_int {
    // SAFETY: the caller's duty.
    match unsafe { lent_mut(bytes.cast::<u8>(), count) } {
        // SAFETY: the caller's duty.
        Ok(bytes) => unsafe { on_chunk(chunk, |held| held!(held, chunk => chunk.read_bytes(at, bytes))) },
        Err(code) => code,
    }
}

/// See the header.
///
/// # Safety
///
/// `chunk` is a handle that only this call uses; `bytes` is null or has `count` of them.
#[unsafe(no_mangle)]
pub unsafe extern "C" fn lk_chunk_write_bytes(chunk: *mut ChunkHandle, at: u64, bytes: *const c_void, count: usize) -> c_int {
    // SAFETY: the caller's duty.
    match unsafe { crate::queue::lent(bytes.cast::<u8>(), count) } {
        // SAFETY: the caller's duty.
        Ok(bytes) => unsafe { on_chunk(chunk, |held| held!(held, chunk => chunk.write_bytes(at, bytes))) },
        Err(code) => code,
    }
}
