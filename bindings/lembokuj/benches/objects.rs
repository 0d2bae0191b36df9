//! Calls of each object by several threads beside the plain way, in turns: `cargo bench -p lembokuj`. Prints millions of
//! calls a second of all threads together, the middle of five runs.

use lembokuj::{Area, Table, queue};
use std::collections::HashMap;
use std::hint::black_box;
use std::sync::Mutex;
use std::sync::mpsc::sync_channel;
use std::thread;
use std::time::Instant;

const RUNS: usize = 5;
const MESSAGES: u64 = 1_000_000;
const ADDS: u64 = 300_000;
const KEYS: u64 = 50_000;
const PAIRS: u64 = 200_000;

/// Millions of calls a second.
fn rate(calls: u64, work: impl FnOnce()) -> f64 {
    let start = Instant::now();
    work();
    calls as f64 / start.elapsed().as_secs_f64() / 1e6
}

/// Sends and receives, each as `pairs` threads do; the receiver checks the order.
fn queue_load(pairs: u64, later: bool) {
    thread::scope(|scope| {
        for _ in 0..pairs {
            let (mut tx, mut rx) = queue(2048, 64).unwrap();
            scope.spawn(move || {
                for n in 0..MESSAGES {
                    let sent = if later { tx.send_later(&n.to_le_bytes()) } else { tx.send(&n.to_le_bytes()) };
                    assert_eq!(sent, Ok(()));
                }
            });
            scope.spawn(move || {
                let mut wanted = 0u64;
                while let Ok(bytes) = rx.receive() {
                    assert_eq!(bytes, wanted.to_le_bytes());
                    wanted += 1;
                }
                assert_eq!(wanted, MESSAGES);
            });
        }
    });
}

fn channel_load(pairs: u64) {
    thread::scope(|scope| {
        for _ in 0..pairs {
            let (tx, rx) = sync_channel::<[u8; 8]>(1024);
            scope.spawn(move || (0..MESSAGES).for_each(|n| tx.send(n.to_le_bytes()).unwrap()));
            scope.spawn(move || {
                for (wanted, bytes) in (0u64..).zip(rx) {
                    assert_eq!(bytes, wanted.to_le_bytes());
                }
            });
        }
    });
}

fn table_load(threads: u32, update: bool) {
    let handles = Table::<u64, u64>::for_keys(KEYS, threads).unwrap();
    thread::scope(|scope| {
        for (id, mut table) in (0u64..).zip(handles) {
            scope.spawn(move || {
                for n in 0..ADDS {
                    let key = (n * 7919 + id) % KEYS;
                    if update {
                        table.update_with(&key, 1, |old, one| Some(old.unwrap_or(&0) + one)).unwrap();
                    } else {
                        black_box(table.get(&key));
                    }
                }
            });
        }
    });
}

fn maps_load(threads: u64, update: bool) {
    let maps: Vec<Mutex<HashMap<u64, u64>>> = (0..128).map(|_| Mutex::default()).collect();
    thread::scope(|scope| {
        for id in 0..threads {
            let maps = &maps;
            scope.spawn(move || {
                for n in 0..ADDS {
                    let key = (n * 7919 + id) % KEYS;
                    let mut map = maps[(key % 128) as usize].lock().unwrap();
                    if update {
                        *map.entry(key).or_default() += 1;
                    } else {
                        black_box(map.get(&key));
                    }
                }
            });
        }
    });
}

fn area_load(threads: u32, bytes: u64) {
    thread::scope(|scope| {
        for mut area in Area::new(1024, threads).unwrap() {
            scope.spawn(move || {
                for n in 0..PAIRS {
                    let mut chunk = area.alloc(bytes).unwrap();
                    assert!(chunk.store(0, n).is_ok());
                    area.free(black_box(chunk));
                }
            });
        }
    });
}

fn malloc_load(threads: u32, bytes: u64) {
    thread::scope(|scope| {
        for _ in 0..threads {
            scope.spawn(move || {
                for n in 0..PAIRS {
                    let mut chunk = vec![0u64; (bytes / 8) as usize];
                    chunk[0] = n;
                    drop(black_box(chunk));
                }
            });
        }
    });
}

/// A way to do something: its name, how many calls it makes, and the calls.
type Way<'a> = (&'a str, u64, &'a dyn Fn());

/// Runs the ways in turns, and prints the middle rate of each.
fn beside(what: &str, ways: &[Way<'_>]) {
    let mut rates: Vec<Vec<f64>> = ways.iter().map(|_| Vec::new()).collect();
    for _ in 0..RUNS {
        for ((_, calls, work), rates) in ways.iter().zip(&mut rates) {
            rates.push(rate(*calls, work));
        }
    }
    print!("{what}:");
    for ((name, ..), mut rates) in ways.iter().zip(rates) {
        rates.sort_by(f64::total_cmp);
        print!("  {name} {:.1}", rates[RUNS / 2]);
    }
    println!();
}

fn main() {
    for pairs in [1, 2] {
        let calls = pairs * MESSAGES;
        beside(
            &format!("messages of 8 bytes, {pairs} senders"),
            &[
                ("queue", calls, &|| queue_load(pairs, false)),
                ("queue, shown later", calls, &|| queue_load(pairs, true)),
                ("sync_channel(1024)", calls, &|| channel_load(pairs)),
            ],
        );
    }
    for threads in [1u32, 4] {
        let calls = u64::from(threads) * ADDS;
        beside(
            &format!("adds to {KEYS} keys, {threads} threads"),
            &[
                ("table", calls, &|| table_load(threads, true)),
                ("128 Mutex<HashMap>", calls, &|| maps_load(threads.into(), true)),
            ],
        );
        beside(
            &format!("finds in an empty table, {threads} threads"),
            &[
                ("table", calls, &|| table_load(threads, false)),
                ("128 Mutex<HashMap>", calls, &|| maps_load(threads.into(), false)),
            ],
        );
        for bytes in [24, 600] {
            let calls = u64::from(threads) * PAIRS;
            beside(
                &format!("pairs of {bytes} bytes, {threads} threads"),
                &[
                    ("area", calls, &|| area_load(threads, bytes)),
                    ("malloc", calls, &|| malloc_load(threads, bytes)),
                ],
            );
        }
    }
}
