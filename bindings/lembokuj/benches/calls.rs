//! What single calls of this library cost, next to what std has for the same: `cargo bench -p lembokuj --bench calls`. Prints
//! nanoseconds a call, the least of some rounds that are made in turns; all in one thread but the barrier and the busy queues,
//! which `-- one` leaves out.

use lembokuj::{Area, Barrier, Table, queue};
use mq_handle::{ReceiveAnswer, ReceiveDone, Receiver, SendAnswer, SendDone, Sender, attach};
use mq_ring::Ring;
use rattle_std::HostRuntime;
use rattle_std::alloc::Global;
use region_words::Region;
use std::collections::HashMap;
use std::hint::black_box;
use std::sync::Mutex;
use std::sync::atomic::{AtomicU64, Ordering::Relaxed};
use std::sync::mpsc::sync_channel;
use std::thread;
use std::time::Instant;

/// Rounds of one thread are short, so that on a busy machine many are made without a break; those of several threads are not.
const SHORT_ROUNDS: usize = 1000;
const SHORT_CALLS: u64 = 500;
const ROUNDS: usize = 25;
const CALLS: u64 = 20_000;
const PHASES: u64 = 2_000;

/// A way to do something: its name, and one round of it, which gives the nanoseconds of a call.
type Way<'a> = (&'a str, Box<dyn FnMut() -> f64 + 'a>);

/// A round of many calls of this kind.
fn calls<'a>(name: &'a str, mut call: impl FnMut(u64) + 'a) -> Way<'a> {
    // No way finds what another one has just brought into the caches.
    static FIRST: AtomicU64 = AtomicU64::new(0);
    let mut done = FIRST.fetch_add(1 << 32, Relaxed);
    let round = move || {
        let start = Instant::now();
        (done..done + SHORT_CALLS).for_each(&mut call);
        done += SHORT_CALLS;
        start.elapsed().as_secs_f64() * 1e9 / SHORT_CALLS as f64
    };
    (name, Box::new(round))
}

/// Makes rounds of all ways in turns, and prints the least of each.
fn compare(what: &str, ways: Vec<Way<'_>>) {
    least_of(what, SHORT_ROUNDS, ways);
}

fn least_of(what: &str, rounds: usize, mut ways: Vec<Way<'_>>) {
    let mut least = vec![f64::INFINITY; ways.len()];
    for _ in 0..rounds {
        for ((_, round), least) in ways.iter_mut().zip(&mut least) {
            *least = least.min(round());
        }
    }
    print!("{what}:");
    for ((name, _), least) in ways.iter().zip(least) {
        print!("  {name} {least:.0}");
    }
    println!();
}

/// A queue of the crates below this library.
fn crates_queue(words: u64) -> (Region, Sender, Receiver) {
    let (region, mut part) = Region::new(Global, words as usize + 4).unwrap_or_else(|_| panic!("memory"));
    let chunk = part.split_chunk(&region, 1, words + 3);
    let (tx, rx) = Ring::create(&region, chunk, words, 0, 1000);
    let (sender, receiver) = attach(Global, tx, rx).unwrap_or_else(|_| panic!("memory"));
    (region, sender, receiver)
}

/// A message that goes and comes in one thread: by this library, by the crates below it, and by std.
fn messages(bytes: usize) {
    const WORDS: u64 = 1024;
    let message = vec![7u8; bytes];
    let (mut tx, mut rx) = queue(WORDS, 1000).unwrap();
    let (mut later, mut rx_later) = queue(WORDS, 1000).unwrap();
    let (region, mut sender, mut receiver) = crates_queue(WORDS);
    let (channel, inbox) = sync_channel::<Vec<u8>>(64);
    compare(
        &format!("a message of {bytes} bytes, sent and received"),
        vec![
            calls("queue", |_| {
                tx.try_send(&message).unwrap();
                black_box(rx.try_receive().unwrap());
            }),
            calls("shown later", |_| {
                later.try_send_later(&message).unwrap();
                black_box(rx_later.try_receive().map_or(0, <[u8]>::len));
            }),
            calls("crates below", |_| {
                assert_eq!(sender.try_send_whole(&region, &message, true), SendAnswer::Sent);
                assert_eq!(receiver.try_receive(&region), ReceiveAnswer::Message);
                black_box(receiver.message());
            }),
            calls("sync_channel of Vec", |_| {
                channel.send(message.clone()).unwrap();
                black_box(inbox.recv().unwrap());
            }),
        ],
    );
}

/// A table of some keys, by this library and by std.
fn tables(keys: u64) {
    let mut table = Table::<u64, u64>::open(keys, 1).unwrap();
    (0..keys).for_each(|key| assert_eq!(table.insert(&key, 0), Ok(None)));
    let table = std::cell::RefCell::new(table);
    let map = Mutex::new((0..keys).map(|key| (key, 0)).collect::<HashMap<u64, u64>>());
    let key = |n: u64| n.wrapping_mul(7919) % keys;
    compare(
        &format!("get, {keys} keys"),
        vec![
            calls("table", |n| assert!(table.borrow_mut().get(&key(n)).is_some())),
            calls("Mutex<HashMap>", |n| assert!(map.lock().unwrap().get(&key(n)).copied().is_some())),
        ],
    );
    compare(
        &format!("insert, {keys} keys"),
        vec![
            calls("table", |n| assert!(table.borrow_mut().insert(&key(n), n).is_ok())),
            calls("Mutex<HashMap>", |n| assert!(map.lock().unwrap().insert(key(n), n).is_some())),
        ],
    );
    compare(
        &format!("update, {keys} keys"),
        vec![
            calls("update", |n| assert!(table.borrow_mut().update(&key(n), |old| old.map(|old| old + 1)).is_ok())),
            calls("update_with", |n| {
                assert!(table.borrow_mut().update_with(&key(n), 1, |old, more| old.map(|old| old + more)).is_ok());
            }),
            calls("Mutex<HashMap>", |n| {
                *map.lock().unwrap().entry(key(n)).or_default() += 1;
            }),
        ],
    );
}

fn chunks(bytes: u64) {
    let mut area = Area::open(64, 1).unwrap();
    compare(
        &format!("a chunk of {bytes} bytes, made and given back"),
        vec![
            calls("area", |_| {
                let chunk = area.alloc(bytes).unwrap();
                area.free(black_box(chunk));
            }),
            calls("Box", |_| drop(black_box(vec![0u8; bytes as usize].into_boxed_slice()))),
        ],
    );
}

/// Nanoseconds a phase, of this number of threads.
fn phases<B: Send>(barriers: Vec<B>, wait: impl Fn(&mut B) + Copy + Send) -> f64 {
    let start = Instant::now();
    thread::scope(|scope| {
        for mut barrier in barriers {
            scope.spawn(move || (0..PHASES).for_each(|_| wait(&mut barrier)));
        }
    });
    start.elapsed().as_secs_f64() * 1e9 / PHASES as f64
}

fn barriers(threads: usize) {
    let ours = || {
        let handles = Barrier::new(threads as u32).unwrap();
        phases(handles, |barrier| assert!(barrier.wait().is_ok()))
    };
    let std = || {
        let barrier = std::sync::Barrier::new(threads);
        phases(vec![&barrier; threads], |barrier| {
            barrier.wait();
        })
    };
    least_of(&format!("a phase of {threads} threads"), ROUNDS, vec![("Barrier", Box::new(ours)), ("std's Barrier", Box::new(std))]);
}

/// Nanoseconds a message, from one thread that sends to one that receives.
fn stream(send: impl FnMut(u64) + Send, receive: impl FnMut(u64) + Send) -> f64 {
    let start = Instant::now();
    thread::scope(|scope| {
        scope.spawn(|| (0..CALLS).for_each(send));
        scope.spawn(|| (0..CALLS).for_each(receive));
    });
    start.elapsed().as_secs_f64() * 1e9 / CALLS as f64
}

fn streams() {
    let ours = || {
        let (mut tx, mut rx) = queue(2048, 8).unwrap();
        stream(|n| tx.send(&n.to_le_bytes()).unwrap(), |n| assert_eq!(rx.receive(), Ok(&n.to_le_bytes()[..])))
    };
    let later = || {
        let (mut tx, mut rx) = queue(2048, 8).unwrap();
        stream(
            move |n| {
                tx.send_later(&n.to_le_bytes()).unwrap();
                if n + 1 == CALLS {
                    tx.flush();
                }
            },
            |n| assert_eq!(rx.receive(), Ok(&n.to_le_bytes()[..])),
        )
    };
    let below = || {
        let (region, mut sender, mut receiver) = crates_queue(2048);
        let host = HostRuntime::new();
        stream(
            |n| assert_eq!(sender.send(&host, &region, &n.to_le_bytes(), true), SendDone::Sent),
            |_| assert_eq!(receiver.receive(&host, &region), ReceiveDone::Message),
        )
    };
    let std = || {
        let (tx, rx) = sync_channel::<[u8; 8]>(1024);
        stream(move |n| tx.send(n.to_le_bytes()).unwrap(), move |n| assert_eq!(rx.recv(), Ok(n.to_le_bytes())))
    };
    least_of(
        "a message of 8 bytes from thread to thread",
        ROUNDS,
        vec![
            ("queue", Box::new(ours)),
            ("shown later", Box::new(later)),
            ("crates below", Box::new(below)),
            ("sync_channel", Box::new(std)),
        ],
    );
}

fn main() {
    [8, 1000].into_iter().for_each(messages);
    [1000, 1_000_000].into_iter().for_each(tables);
    [24, 600].into_iter().for_each(chunks);
    // Those of one thread only, for a machine that has other work.
    if std::env::args().all(|word| word != "one") {
        streams();
        [2, 4].into_iter().for_each(barriers);
    }
}
