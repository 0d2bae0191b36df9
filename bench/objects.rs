//! The loads of the program `uses_load`, made with what plain Rust has: `objects FORM KIND THREADS CALLS SIZE` makes
//! one shared object, lets so many threads make so many calls each, and prints the line that `uses_load` prints.
//!
//! The forms are `mutex` of the lock, `system` of area, spares and window (the system's allocator, or one that is preloaded),
//! `channel` and `ring` of queue and flushed, `one` and `many` of puts, gets and sets. docs/PERFORMANCE.md says what each
//! load is.
use std::alloc::{alloc, dealloc, Layout};
use std::cell::UnsafeCell;
use std::collections::HashMap;
use std::hint::{black_box, spin_loop};
use std::sync::atomic::{AtomicU64, Ordering};
use std::sync::mpsc::sync_channel;
use std::sync::Mutex;
use std::thread;

const RING_BYTES: usize = 65536;
const WINDOW: usize = 100;
const SPREAD: u64 = 0x9E37_79B9_7F4A_7C15;

/// Runs the work in so many threads, each with its number, and adds up what they counted.
fn in_threads(threads: u64, work: impl Fn(u64) -> u64 + Sync) -> u64 {
    let work = &work;
    thread::scope(|scope| {
        let started: Vec<_> = (0..threads).map(|number| scope.spawn(move || work(number))).collect();
        started.into_iter().map(|one| one.join().unwrap()).sum()
    })
}

fn lock(threads: u64, calls: u64) -> u64 {
    let value = Mutex::new(0u64);
    in_threads(threads, |_| {
        for _ in 0..calls {
            *value.lock().unwrap() += 1;
        }
        0
    });
    value.into_inner().unwrap()
}

/// A chunk is allocated, its first word is written, and it is freed.
fn area(threads: u64, calls: u64, size: u64) -> u64 {
    let layout = Layout::from_size_align(size as usize, 8).unwrap();
    in_threads(threads, |_| {
        let mut good = 0;
        for number in 0..calls {
            unsafe {
                let at = black_box(alloc(layout)) as *mut u64;
                if !at.is_null() {
                    *at = number;
                    dealloc(black_box(at as *mut u8), layout);
                    good += 1;
                }
            }
        }
        good
    })
}

/// A hundred chunks are live at once: each call allocates one, writes its first word, and frees the one that was allocated
/// a hundred calls before.
fn window(threads: u64, calls: u64, size: u64) -> u64 {
    let layout = Layout::from_size_align(size as usize, 8).unwrap();
    let take = |number: u64| unsafe {
        let at = black_box(alloc(layout)) as *mut u64;
        assert!(!at.is_null());
        *at = number;
        at
    };
    in_threads(threads, |_| {
        let mut held: Vec<*mut u64> = (0..WINDOW).map(|number| take(number as u64)).collect();
        for number in 0..calls {
            let old = std::mem::replace(&mut held[number as usize % WINDOW], take(number));
            unsafe { dealloc(black_box(old as *mut u8), layout) }
        }
        calls
    })
}

fn is_numbered(message: &[u8], number: u64, size: u64) -> bool {
    message.len() == size as usize && message.starts_with(&number.to_le_bytes())
}

/// Each message is a vector of its own; as many are on their way as the ring of 64 KiB holds.
fn channel(calls: u64, size: u64) -> u64 {
    let (tx, rx) = sync_channel::<Vec<u8>>((RING_BYTES / (size as usize + 8)).max(1));
    thread::scope(|scope| {
        scope.spawn(move || {
            for number in 0..calls {
                let mut message = vec![0u8; size as usize];
                message[..8].copy_from_slice(&number.to_le_bytes());
                tx.send(message).unwrap();
            }
        });
        (0..calls).filter(|number| is_numbered(&rx.recv().unwrap(), *number, size)).count() as u64
    })
}

/// A count on a cache line of its own.
#[repr(align(128))]
struct Count(AtomicU64);

/// Bytes written by one thread and read by another. A message is its length in 8 bytes and then its bytes, padded to 8.
struct Ring {
    bytes: Box<[UnsafeCell<u8>]>,
    written: Count,
    read: Count,
}

unsafe impl Sync for Ring {}

impl Ring {
    /// Copies bytes in at a count, round the end of the ring. The caller owns that room.
    unsafe fn put(&self, at: u64, from: &[u8]) {
        let place = at as usize % RING_BYTES;
        let first = from.len().min(RING_BYTES - place);
        let base = self.bytes.as_ptr() as *mut u8;
        std::ptr::copy_nonoverlapping(from.as_ptr(), base.add(place), first);
        std::ptr::copy_nonoverlapping(from.as_ptr().add(first), base, from.len() - first);
    }

    /// Copies bytes out at a count. The caller may read them.
    unsafe fn take(&self, at: u64, to: &mut [u8]) {
        let place = at as usize % RING_BYTES;
        let first = to.len().min(RING_BYTES - place);
        let base = self.bytes.as_ptr() as *const u8;
        std::ptr::copy_nonoverlapping(base.add(place), to.as_mut_ptr(), first);
        std::ptr::copy_nonoverlapping(base, to.as_mut_ptr().add(first), to.len() - first);
    }
}

/// Reads a count until it is as far as is wanted, and yields the processor after a while.
fn await_count(count: &Count, wanted: impl Fn(u64) -> bool) -> u64 {
    let mut tries = 0u32;
    loop {
        let found = count.0.load(Ordering::Acquire);
        if wanted(found) {
            return found;
        }
        tries += 1;
        if tries < 100 {
            spin_loop();
        } else {
            thread::yield_now();
        }
    }
}

fn send_all(ring: &Ring, calls: u64, size: u64) {
    let mut message = vec![0u8; size as usize];
    let room = 8 + size.next_multiple_of(8);
    let (mut at, mut read) = (0u64, 0u64);
    for number in 0..calls {
        message[..8].copy_from_slice(&number.to_le_bytes());
        let least = (at + room).saturating_sub(RING_BYTES as u64);
        if read < least {
            read = await_count(&ring.read, |found| least <= found);
        }
        unsafe {
            ring.put(at, &size.to_le_bytes());
            ring.put(at + 8, &message);
        }
        at += room;
        ring.written.0.store(at, Ordering::Release);
    }
}

fn receive_all(ring: &Ring, calls: u64, size: u64) -> u64 {
    let mut buffer = vec![0u8; RING_BYTES];
    let mut length = [0u8; 8];
    let (mut at, mut written, mut came) = (0u64, 0u64, 0);
    for number in 0..calls {
        if written <= at {
            written = await_count(&ring.written, |found| at < found);
        }
        unsafe { ring.take(at, &mut length) };
        let bytes = u64::from_le_bytes(length);
        let message = &mut buffer[..bytes as usize];
        unsafe { ring.take(at + 8, message) };
        at += 8 + bytes.next_multiple_of(8);
        ring.read.0.store(at, Ordering::Release);
        came += u64::from(is_numbered(message, number, size));
    }
    came
}

fn ring(calls: u64, size: u64) -> u64 {
    assert!(8 + size.next_multiple_of(8) <= RING_BYTES as u64, "a message fits the ring");
    let ring = Ring {
        bytes: (0..RING_BYTES).map(|_| UnsafeCell::new(0)).collect(),
        written: Count(AtomicU64::new(0)),
        read: Count(AtomicU64::new(0)),
    };
    thread::scope(|scope| {
        scope.spawn(|| send_all(&ring, calls, size));
        receive_all(&ring, calls, size)
    })
}

/// A map in so many parts, each behind a mutex.
struct Table(Vec<Mutex<HashMap<u64, u64>>>);

impl Table {
    fn new(parts: usize) -> Table {
        Table((0..parts).map(|_| Mutex::new(HashMap::new())).collect())
    }

    /// The part of a key, by bits that the map's own hash does not know.
    fn part(&self, key: u64) -> &Mutex<HashMap<u64, u64>> {
        &self.0[(key.wrapping_mul(SPREAD) >> 57) as usize % self.0.len()]
    }

    fn put(&self, key: u64) -> bool {
        self.part(key).lock().unwrap().insert(key, key).is_none()
    }

    fn set(&self, key: u64, number: u64) -> bool {
        self.part(key).lock().unwrap().insert(key, number).is_some()
    }

    fn delete(&self, key: u64) -> bool {
        self.part(key).lock().unwrap().remove(&key) == Some(key)
    }

    fn has(&self, key: u64) -> bool {
        self.part(key).lock().unwrap().get(&key) == Some(&key)
    }
}

/// Each thread puts keys of its own; with as many as its part of `keys`, the oldest goes before the next comes.
fn puts(parts: usize, threads: u64, calls: u64, keys: u64) -> u64 {
    let table = Table::new(parts);
    let most = keys / threads;
    in_threads(threads, |number| {
        let from = number << 32;
        let mut new = 0;
        for at in 0..calls {
            let gone = at < most || table.delete(from + at - most);
            new += u64::from(gone && table.put(from + at));
        }
        new
    })
}

/// A table with the keys from 0 on, and calls of them, in an order of each thread's own. Says how many went well.
fn present(parts: usize, threads: u64, calls: u64, keys: u64, call: impl Fn(&Table, u64, u64) -> bool + Sync) -> u64 {
    let table = Table::new(parts);
    for key in 0..keys {
        table.put(key);
    }
    in_threads(threads, |number| {
        let of = |i: u64| i.wrapping_add(number << 32).wrapping_mul(SPREAD) % keys;
        (0..calls).filter(|i| call(&table, of(*i), *i)).count() as u64
    })
}

fn gets(parts: usize, threads: u64, calls: u64, keys: u64) -> u64 {
    present(parts, threads, calls, keys, |table, key, _| table.has(key))
}

fn sets(parts: usize, threads: u64, calls: u64, keys: u64) -> u64 {
    present(parts, threads, calls, keys, |table, key, number| table.set(key, number))
}

fn main() {
    let words: Vec<String> = std::env::args().skip(1).collect();
    let number = |at: usize| words[at].parse::<u64>().unwrap();
    let (threads, calls, size) = (number(2), number(3), number(4));
    let all = threads * calls;
    let parts = if words[0] == "many" { 128 } else { 1 };
    let told = match (words[0].as_str(), words[1].as_str()) {
        ("mutex", "lock") => format!("{all} calls, value {}", lock(threads, calls)),
        ("system", "area" | "spares") => format!("{all} pairs of {size} bytes, {} good", area(threads, calls, size)),
        ("system", "window") => format!("{all} pairs of {size} bytes, {} good", window(threads, calls, size)),
        ("channel", "queue" | "flushed") => format!("{calls} messages of {size} bytes, {} came", channel(calls, size)),
        ("ring", "queue" | "flushed") => format!("{calls} messages of {size} bytes, {} came", ring(calls, size)),
        ("one" | "many", "puts") => format!("{all} puts on {size} keys, {} new", puts(parts, threads, calls, size)),
        ("one" | "many", "gets") => format!("{all} gets on {size} keys, {} found", gets(parts, threads, calls, size)),
        ("one" | "many", "sets") => format!("{all} sets on {size} keys, {} there", sets(parts, threads, calls, size)),
        _ => panic!("no such load"),
    };
    println!("{}: {threads} threads, {told}", words[1]);
}
