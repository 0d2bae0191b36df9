//! Four threads at each object, with counts and sums that have to come out.

use lembokuj::{Area, Barrier, ReceiveError, Table, Text, queue};
use std::collections::VecDeque;
use std::thread;

/// In a debug build fewer.
const CALLS: u64 = if cfg!(debug_assertions) { 20_000 } else { 200_000 };

#[test]
fn two_queues_keep_order_and_count() {
    thread::scope(|scope| {
        for pair in 0..2u64 {
            let (mut tx, mut rx) = queue(256, 40).unwrap();
            scope.spawn(move || {
                for n in 0..CALLS {
                    let message = [(n ^ pair).to_le_bytes(); 5];
                    let bytes = &message.as_flattened()[..(n % 41) as usize];
                    let sent = if n % 3 == 0 { tx.send_later(bytes) } else { tx.send(bytes) };
                    assert_eq!(sent, Ok(()));
                }
            });
            scope.spawn(move || {
                for n in 0..CALLS {
                    let message = [(n ^ pair).to_le_bytes(); 5];
                    assert_eq!(rx.receive(), Ok(&message.as_flattened()[..(n % 41) as usize]));
                }
                assert_eq!(rx.receive(), Err(ReceiveError::Detached));
            });
        }
    });
}

#[test]
fn four_threads_count_in_one_table() {
    let keys = CALLS / 10;
    let mut tables = Table::<u64, u64>::for_keys(keys, 5).unwrap();
    let mut last = tables.pop().unwrap();
    thread::scope(|scope| {
        for (id, (mut table, mut barrier)) in (0u64..).zip(tables.into_iter().zip(Barrier::new(4).unwrap())) {
            scope.spawn(move || {
                barrier.wait().unwrap();
                for n in 0..CALLS {
                    let key = (n * 7919 + id) % keys;
                    let updated = match n % 2 {
                        0 => table.update(&key, |old| Some(old.unwrap_or(&0) + 1)),
                        _ => table.update_with(&key, 1, |old, one| Some(old.unwrap_or(&0) + one)),
                    };
                    updated.unwrap();
                }
            });
        }
    });
    let entries = last.entries().unwrap();
    assert_eq!(entries.len() as u64, keys);
    assert_eq!(entries.iter().map(|entry| entry.1).sum::<u64>(), 4 * CALLS);
}

/// While keys come in, one after another, who finds the last of them finds the others, and no count is less than one before.
#[test]
fn finds_and_counts_go_on_while_keys_come_in() {
    let keys = CALLS / 10;
    let mut tables = Table::<u64, u64>::for_keys(keys, 5).unwrap();
    let mut writer = tables.pop().unwrap();
    let mut last = tables.pop().unwrap();
    thread::scope(|scope| {
        scope.spawn(move || {
            for key in 0..keys {
                assert_eq!(writer.insert(&key, 2 * key), Ok(None));
            }
        });
        for mut reader in tables {
            scope.spawn(move || {
                let mut counted = 0;
                for key in (0..keys).rev().step_by(97) {
                    let there = reader.get(&key).is_some();
                    let before = reader.get(&(key / 2));
                    assert!(before.is_none_or(|value| value == 2 * (key / 2)));
                    assert!(!there || before.is_some());
                    let now = reader.count();
                    assert!(counted <= now && (!there || key < now));
                    counted = now;
                }
            });
        }
    });
    assert_eq!((last.count(), last.get(&(keys - 1))), (keys, Some(2 * (keys - 1))));
}

#[test]
fn texts_are_keys() {
    let mut tables = Table::<Text<4>, (u64, Text<2>)>::for_keys(100, 2).unwrap();
    let key = |n: u64| Text::new(&format!("station {n}")).unwrap();
    for n in 0..100 {
        tables[0].insert(&key(n), (n, Text::new("warm").unwrap())).unwrap();
    }
    assert_eq!(tables[1].get(&key(42)), Some((42, Text::new("warm").unwrap())));
    assert_eq!(tables[1].get(&key(100)), None);
}

#[test]
fn chunks_do_not_overlap() {
    thread::scope(|scope| {
        for (id, mut area) in (0u64..).zip(Area::new(2048, 4).unwrap()) {
            scope.spawn(move || {
                let mut held: VecDeque<(u64, lembokuj::Chunk)> = VecDeque::new();
                for n in 0..CALLS / 4 {
                    let mut chunk = area.alloc(8 + n * 37 % 3000).unwrap();
                    for at in 0..chunk.words() {
                        chunk.store(at, n << 8 | id).unwrap();
                    }
                    held.push_back((n, chunk));
                    if held.len() > 20 {
                        let (old, chunk) = held.pop_front().unwrap();
                        assert!((0..chunk.words()).all(|at| chunk.load(at) == Some(old << 8 | id)));
                    }
                }
            });
        }
    });
}

#[test]
fn each_phase_elects_one() {
    let elected: usize = thread::scope(|scope| {
        let workers: Vec<_> = Barrier::new(4)
            .unwrap()
            .into_iter()
            .map(|mut barrier| {
                scope.spawn(move || {
                    (0..1000u64)
                        .filter(|phase| {
                            let arrival = barrier.wait().unwrap();
                            assert_eq!(arrival.phase, phase + 1);
                            arrival.is_elected
                        })
                        .count()
                })
            })
            .collect();
        workers.into_iter().map(|worker| worker.join().unwrap()).sum()
    });
    assert_eq!(elected, 1000);
}
