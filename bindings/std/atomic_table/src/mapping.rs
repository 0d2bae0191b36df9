//! A mapping as this process has it. Everything in it is named by a word's number, from 0 for its first word: nothing in it
//! is an address, and each process may have it at another one.

use std::ffi::{c_int, c_void};
use std::io;
use std::os::fd::{AsFd, AsRawFd};
use std::ptr::NonNull;
use std::sync::Arc;
use std::sync::atomic::AtomicU64;
use std::sync::atomic::Ordering::SeqCst;

unsafe extern "C" {
    fn mmap(at: *mut c_void, bytes: usize, protection: c_int, flags: c_int, fd: c_int, from: i64) -> *mut c_void;
    fn munmap(at: *mut c_void, bytes: usize) -> c_int;
}

const READ_WRITE: c_int = 3;
const MAP_SHARED: c_int = 1;

/// A file's words, shared with every other process that maps the file. It is unmapped with its last owner.
#[derive(Debug)]
pub struct Mapping {
    base: NonNull<u8>,
    words: u64,
}

// SAFETY: its words are reached as atomics; a slot in it is a table's (`Shared`).
unsafe impl Send for Mapping {}
// SAFETY: as above.
unsafe impl Sync for Mapping {}

impl Mapping {
    /// Maps the first words of a file, at an address that the system chooses. If the file gets shorter afterwards, the
    /// system ends a process that touches what is gone.
    pub fn of_file(file: &impl AsFd, words: u64) -> io::Result<Arc<Mapping>> {
        let bytes = usize::try_from(words).ok().and_then(|words| words.checked_mul(8));
        let bytes = bytes.ok_or(io::ErrorKind::InvalidInput)?;
        // SAFETY: a new mapping, at no address of ours.
        let at = unsafe { mmap(std::ptr::null_mut(), bytes, READ_WRITE, MAP_SHARED, file.as_fd().as_raw_fd(), 0) };
        if at.addr() == usize::MAX {
            return Err(io::Error::last_os_error());
        }
        let base = NonNull::new(at.cast()).ok_or(io::ErrorKind::Other)?;
        Ok(Arc::new(Mapping { base, words }))
    }

    /// How many words there are.
    pub fn words(&self) -> u64 {
        self.words
    }

    /// Where it lies in this process. It differs from process to process.
    pub fn address(&self) -> usize {
        self.base.addr().get()
    }

    /// A word. It panics if there is none.
    #[inline]
    pub fn word(&self, at: u64) -> &AtomicU64 {
        assert!(at < self.words, "a word of the mapping");
        // SAFETY: the word is in the mapping, which lives as long as `self`; a page's address is a multiple of 8.
        unsafe { self.base.cast::<AtomicU64>().add(at as usize).as_ref() }
    }

    /// The address of a word at which so many bytes are there, as a pointer.
    pub(crate) fn pointer<T>(&self, at: u64, bytes: u64) -> NonNull<T> {
        assert!(at <= self.words && bytes <= 8 * (self.words - at), "bytes of the mapping");
        // SAFETY: in the mapping, or just past it if no byte is wanted.
        unsafe { self.base.add(8 * at as usize).cast() }
    }
}

impl Drop for Mapping {
    fn drop(&mut self) {
        // SAFETY: nobody has it any more, and it was mapped with this length.
        unsafe { munmap(self.base.as_ptr().cast(), 8 * self.words as usize) };
    }
}

/// Words of a mapping that nobody uses yet. What is taken is taken for good.
#[derive(Clone, Debug)]
pub struct Room {
    mapping: Arc<Mapping>,
    next: Arc<AtomicU64>,
    end: u64,
}

impl Room {
    /// The words from `first` to `end`, which nobody uses.
    pub fn new(mapping: &Arc<Mapping>, first: u64, end: u64) -> Room {
        Room {
            mapping: Arc::clone(mapping),
            next: Arc::new(AtomicU64::new(first)),
            end: end.min(mapping.words()),
        }
    }

    /// The mapping.
    pub fn mapping(&self) -> &Arc<Mapping> {
        &self.mapping
    }

    /// The first of so many words, at a number that is a multiple of `align`; None if so many are not left.
    pub fn take(&self, words: u64, align: u64) -> Option<u64> {
        let first = self.next.load(SeqCst).checked_next_multiple_of(align)?;
        let end = first.checked_add(words)?;
        if end > self.end {
            return None;
        }
        self.next.store(end, SeqCst);
        Some(first)
    }
}
