//! Queues for C.

use crate::codes::*;
use crate::handle::{Handle, RECEIVER, SENDER, close, code, open, put, put_handle};
use crate::limit::{Limit, Wait};
use lembokuj::{QueueError, ReceiveError, Rx, SendError, Tx, queue, select, select_timeout, select_while};
use std::ffi::{c_int, c_void};

/// The flag by which the receiver may see a message later.
const LATER: c_int = 1;

/// See the header.
///
/// # Safety
///
/// `tx` and `rx` are null or may be written.
#[unsafe(no_mangle)]
pub unsafe extern "C" fn lk_queue_new(
    ring_words: u64,
    max_bytes: u32,
    tx: *mut *mut Handle<Tx>,
    rx: *mut *mut Handle<Rx>,
) -> c_int {
    if tx.is_null() || rx.is_null() {
        return LK_NULL;
    }
    let (sender, receiver) = match queue(ring_words, max_bytes) {
        Ok(ends) => ends,
        Err(QueueError::RingSize | QueueError::MessageSize) => return LK_BAD_SIZE,
        Err(_) => return LK_NO_MEMORY,
    };
    // SAFETY: the places may be written, and a sender's handle is at the first one once that is.
    code(unsafe {
        put_handle(tx, SENDER, sender).and_then(|()| match put_handle(rx, RECEIVER, receiver) {
            Ok(()) => Ok(LK_OK),
            Err(code) => close(tx, SENDER).and(Err(code)),
        })
    })
}

/// The items that C lends for a call.
///
/// # Safety
///
/// That number of items may be read, which nobody changes during the call.
pub(crate) unsafe fn lent<'a, T>(items: *const T, count: usize) -> Result<&'a [T], c_int> {
    match (count, items.is_null()) {
        (0, _) => Ok(&[]),
        (_, true) => Err(LK_NULL),
        // SAFETY: the items may be read.
        (_, false) => Ok(unsafe { std::slice::from_raw_parts(items, count) }),
    }
}

/// Some bytes of a message, as the header has them. A message of slices without a byte has any pointer.
#[repr(C)]
pub struct Slice {
    bytes: *const c_void,
    len: usize,
}

/// The most slices of one message.
const MOST_SLICES: usize = 64;

fn sent(answer: Result<(), SendError>) -> c_int {
    match answer {
        Ok(()) => LK_OK,
        Err(SendError::WouldBlock) => LK_WOULD_BLOCK,
        Err(SendError::Begun) => LK_BEGUN,
        Err(SendError::TooLong) => LK_TOO_LONG,
        Err(SendError::OtherMessage) => LK_OTHER_MESSAGE,
        Err(SendError::PeerDied) => LK_PEER_DIED,
        Err(SendError::Damaged) => LK_DAMAGED,
        Err(_) => LK_DETACHED,
    }
}

/// Makes a call of a sender with a message.
///
/// # Safety
///
/// `tx` is a handle that only this call uses; `len` bytes may be read.
unsafe fn send(
    tx: *mut Handle<Tx>,
    bytes: *const c_void,
    len: usize,
    call: impl FnOnce(&mut Tx, &[u8]) -> Result<(), SendError>,
) -> c_int {
    // SAFETY: the caller's duty.
    match unsafe { (open(tx, SENDER), lent(bytes.cast::<u8>(), len)) } {
        (Ok(tx), Ok(message)) => sent(call(tx, message)),
        (Err(code), _) | (_, Err(code)) => code,
    }
}

/// See the header.
///
/// # Safety
///
/// `tx` is a handle that only this call uses; `len` bytes may be read.
#[unsafe(no_mangle)]
pub unsafe extern "C" fn lk_queue_try_send(tx: *mut Handle<Tx>, bytes: *const c_void, len: usize, flags: c_int) -> c_int {
    let call = if flags & LATER == 0 { Tx::try_send } else { Tx::try_send_later };
    // SAFETY: the same duty.
    unsafe { send(tx, bytes, len, call) }
}

/// See the header.
///
/// # Safety
///
/// `tx` is a handle that only this call uses; `len` bytes may be read.
#[unsafe(no_mangle)]
pub unsafe extern "C" fn lk_queue_try_send_part(tx: *mut Handle<Tx>, bytes: *const c_void, len: usize) -> c_int {
    // SAFETY: the same duty.
    unsafe { send(tx, bytes, len, Tx::try_send_part) }
}

/// See the header.
///
/// # Safety
///
/// `tx` is a handle that only this call uses; `len` bytes may be read.
#[unsafe(no_mangle)]
pub unsafe extern "C" fn lk_queue_send(tx: *mut Handle<Tx>, bytes: *const c_void, len: usize, flags: c_int) -> c_int {
    let call = if flags & LATER == 0 { Tx::send } else { Tx::send_later };
    // SAFETY: the same duty.
    unsafe { send(tx, bytes, len, call) }
}

/// See the header.
///
/// # Safety
///
/// `tx` is a handle that only this call uses; `len` bytes may be read; `limit` is null or a limit, whose function may be called.
#[unsafe(no_mangle)]
pub unsafe extern "C" fn lk_queue_send_within(
    tx: *mut Handle<Tx>,
    bytes: *const c_void,
    len: usize,
    limit: *const Limit,
) -> c_int {
    // SAFETY: the caller's duty.
    let wait = unsafe { Limit::wait(limit) };
    // SAFETY: the same duty.
    unsafe {
        send(tx, bytes, len, |tx, message| match wait {
            Wait::Forever => tx.send(message),
            Wait::Time(time) => tx.send_timeout(message, time),
            Wait::While(go_on) => tx.send_while(message, go_on),
        })
    }
}

/// Makes a call of a sender with the slices of a message.
///
/// # Safety
///
/// `tx` is a handle that only this call uses; `count` slices may be read, and the bytes of each.
unsafe fn send_slices(
    tx: *mut Handle<Tx>,
    slices: *const Slice,
    count: usize,
    call: impl FnOnce(&mut Tx, &[&[u8]]) -> Result<(), SendError>,
) -> Result<c_int, c_int> {
    if count > MOST_SLICES {
        return Err(LK_BAD_SIZE);
    }
    // SAFETY: the caller's duty.
    let (tx, slices) = unsafe { (open(tx, SENDER)?, lent(slices, count)?) };
    let mut parts = [&[][..]; MOST_SLICES];
    for (part, slice) in parts.iter_mut().zip(slices) {
        // SAFETY: the caller's duty.
        *part = unsafe { lent(slice.bytes.cast::<u8>(), slice.len) }?;
    }
    Ok(sent(call(tx, &parts[..count])))
}

/// See the header.
///
/// # Safety
///
/// `tx` is a handle that only this call uses; `count` slices may be read, and the bytes of each.
#[unsafe(no_mangle)]
pub unsafe extern "C" fn lk_queue_sendv(tx: *mut Handle<Tx>, slices: *const Slice, count: usize) -> c_int {
    // SAFETY: the same duty.
    code(unsafe { send_slices(tx, slices, count, Tx::send_slices) })
}

/// See the header.
///
/// # Safety
///
/// `tx` is a handle that only this call uses; `count` slices may be read, and the bytes of each.
#[unsafe(no_mangle)]
pub unsafe extern "C" fn lk_queue_try_sendv(tx: *mut Handle<Tx>, slices: *const Slice, count: usize) -> c_int {
    // SAFETY: the same duty.
    code(unsafe { send_slices(tx, slices, count, Tx::try_send_slices) })
}

/// See the header.
///
/// # Safety
///
/// `tx` is a handle that only this call uses.
#[unsafe(no_mangle)]
pub unsafe extern "C" fn lk_queue_flush(tx: *mut Handle<Tx>) -> c_int {
    // SAFETY: the caller's duty.
    code(unsafe { open(tx, SENDER) }.map(|tx| {
        tx.flush();
        LK_OK
    }))
}

/// Makes a call of a receiver, and gives C what it found.
///
/// # Safety
///
/// `rx` is a handle that only this call uses; `bytes` and `len` are null or may be written.
unsafe fn receive(
    rx: *mut Handle<Rx>,
    bytes: *mut *const u8,
    len: *mut usize,
    call: impl FnOnce(&mut Rx) -> Result<&[u8], ReceiveError>,
) -> c_int {
    if bytes.is_null() || len.is_null() {
        return LK_NULL;
    }
    // SAFETY: the caller's duty.
    match unsafe { open(rx, RECEIVER) }.map(call) {
        // SAFETY: the places may be written.
        Ok(Ok(message)) => code(unsafe { put(bytes, message.as_ptr()).and_then(|()| put(len, message.len())) }.map(|()| LK_OK)),
        Ok(Err(ReceiveError::WouldBlock)) => LK_WOULD_BLOCK,
        Ok(Err(ReceiveError::PeerDied)) => LK_PEER_DIED,
        Ok(Err(ReceiveError::Damaged)) => LK_DAMAGED,
        Ok(Err(_)) => LK_DETACHED,
        Err(code) => code,
    }
}

/// See the header.
///
/// # Safety
///
/// `rx` is a handle that only this call uses; `bytes` and `len` are null or may be written.
#[unsafe(no_mangle)]
pub unsafe extern "C" fn lk_queue_try_receive(rx: *mut Handle<Rx>, bytes: *mut *const u8, len: *mut usize) -> c_int {
    // SAFETY: the same duty.
    unsafe { receive(rx, bytes, len, Rx::try_receive) }
}

/// See the header.
///
/// # Safety
///
/// `rx` is a handle that only this call uses; `bytes` and `len` are null or may be written.
#[unsafe(no_mangle)]
pub unsafe extern "C" fn lk_queue_receive(rx: *mut Handle<Rx>, bytes: *mut *const u8, len: *mut usize) -> c_int {
    // SAFETY: the same duty.
    unsafe { receive(rx, bytes, len, Rx::receive) }
}

/// See the header.
///
/// # Safety
///
/// `rx` is a handle that only this call uses; `bytes` and `len` are null or may be written; `limit` is null or a limit, whose
/// function may be called.
#[unsafe(no_mangle)]
pub unsafe extern "C" fn lk_queue_receive_within(
    rx: *mut Handle<Rx>,
    limit: *const Limit,
    bytes: *mut *const u8,
    len: *mut usize,
) -> c_int {
    // SAFETY: the caller's duty.
    let wait = unsafe { Limit::wait(limit) };
    // SAFETY: the same duty.
    unsafe {
        receive(rx, bytes, len, |rx| match wait {
            Wait::Forever => rx.receive(),
            Wait::Time(time) => rx.receive_timeout(time),
            Wait::While(go_on) => rx.receive_while(go_on),
        })
    }
}

/// The most receivers of one wait.
const MOST_RECEIVERS: usize = 256;

/// See the header.
///
/// # Safety
///
/// `rx` has `count` handles, different ones, which only this call uses; `which` is null or may be written; `limit` is null or a
/// limit, whose function may be called.
#[unsafe(no_mangle)]
pub unsafe extern "C" fn lk_wait_any(
    rx: *const *mut Handle<Rx>,
    count: usize,
    limit: *const Limit,
    which: *mut usize,
) -> c_int {
    // SAFETY: the same duty.
    code(unsafe { wait_any(rx, count, limit, which) })
}

/// # Safety
///
/// As for `lk_wait_any`.
unsafe fn wait_any(rx: *const *mut Handle<Rx>, count: usize, limit: *const Limit, which: *mut usize) -> Result<c_int, c_int> {
    if which.is_null() {
        return Err(LK_NULL);
    }
    if !(1..=MOST_RECEIVERS).contains(&count) {
        return Err(LK_BAD_SIZE);
    }
    // SAFETY: the caller's duty.
    let handles = unsafe { lent(rx, count) }?;
    let mut receivers = Vec::new();
    receivers.try_reserve_exact(count).map_err(|_| LK_NO_MEMORY)?;
    for (at, handle) in handles.iter().enumerate() {
        // Two of one handle would be two borrows of one receiver.
        if handles[..at].contains(handle) {
            return Err(LK_TWICE);
        }
        // SAFETY: the caller's duty.
        receivers.push(unsafe { open(*handle, RECEIVER) }?);
    }
    // SAFETY: the caller's duty.
    let chosen = match unsafe { Limit::wait(limit) } {
        Wait::Forever => Some(select(&mut receivers)),
        Wait::Time(time) => select_timeout(&mut receivers, time),
        Wait::While(go_on) => select_while(&mut receivers, go_on),
    };
    match chosen {
        // SAFETY: the place may be written.
        Some(at) => unsafe { put(which, at) }.map(|()| LK_OK),
        None => Ok(LK_WOULD_BLOCK),
    }
}

/// See the header.
///
/// # Safety
///
/// `tx` is null or points to a handle that only this call uses.
#[unsafe(no_mangle)]
pub unsafe extern "C" fn lk_queue_close_sender(tx: *mut *mut Handle<Tx>) -> c_int {
    // SAFETY: the caller's duty.
    code(unsafe { close(tx, SENDER) }.map(|_| LK_OK))
}

/// See the header.
///
/// # Safety
///
/// `rx` is null or points to a handle that only this call uses.
#[unsafe(no_mangle)]
pub unsafe extern "C" fn lk_queue_close_receiver(rx: *mut *mut Handle<Rx>) -> c_int {
    // SAFETY: the caller's duty.
    code(unsafe { close(rx, RECEIVER) }.map(|_| LK_OK))
}
