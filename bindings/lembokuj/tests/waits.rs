//! Waits sleep, end at their time, and wake up at once.

use lembokuj::{Barrier, ChunkTable, ReceiveError, SendError, queue, select, select_timeout, select_while};
use std::panic::{AssertUnwindSafe, catch_unwind};
use std::sync::atomic::{AtomicBool, AtomicU64, Ordering::SeqCst};
use std::thread;
use std::time::{Duration, Instant};

const SHORT: Duration = Duration::from_millis(40);

/// A time that no wake-up takes, on a busy machine too.
const LONG: Duration = Duration::from_secs(120);

/// The most ticks of a second that a thread uses which sleeps: a machine that stops for a moment may count that as the thread's. One
/// that stays awake uses most of the second.
const FEW_TICKS: u64 = 10;

/// The processor time of this thread, in clock ticks of 10 ms; None on other systems.
fn ticks() -> Option<u64> {
    let stat = std::fs::read_to_string("/proc/thread-self/stat").ok()?;
    let fields: Vec<&str> = stat.rsplit_once(')')?.1.split_whitespace().collect();
    Some(fields.get(11)?.parse::<u64>().ok()? + fields.get(12)?.parse::<u64>().ok()?)
}

/// A wait that is to end at its time: what it answers, after how long, by how many ticks.
fn timed<R>(wait: impl FnOnce() -> R) -> (R, Duration, u64) {
    let (start, before) = (Instant::now(), ticks());
    let answer = wait();
    (answer, start.elapsed(), ticks().zip(before).map_or(0, |(after, before)| after - before))
}

#[test]
fn waits_end_at_their_time_and_sleep_meanwhile() {
    let (mut tx, mut rx) = queue(8, 100).unwrap();
    let second = Duration::from_secs(1);
    let (answer, time, used) = timed(|| rx.receive_timeout(second).map(<[u8]>::len));
    assert_eq!(answer, Err(ReceiveError::WouldBlock));
    assert!(time >= second && used <= FEW_TICKS, "{time:?} {used}");
    tx.send(&[0; 50]).unwrap();
    let (answer, time, _) = timed(|| tx.send_timeout(&[1; 20], SHORT));
    assert_eq!(answer, Err(SendError::WouldBlock));
    assert!(time >= SHORT);
    // Nothing of it was stored: another message may come next.
    assert_eq!((rx.receive(), tx.send_timeout(b"other", SHORT)), (Ok(&[0; 50][..]), Ok(())));
    assert_eq!(rx.receive_timeout(LONG), Ok(&b"other"[..]));
    // One that is longer than the ring has begun.
    assert_eq!(tx.send_timeout(&[3; 100], SHORT), Err(SendError::Begun));
    assert_eq!(tx.send_timeout(&[4; 100], SHORT), Err(SendError::OtherMessage));
    let mut asked = 0;
    let go_on = || {
        asked += 1;
        asked < 4
    };
    assert_eq!(tx.send_while(&[3; 100], go_on), Err(SendError::Begun));
    assert_eq!(asked, 4);
    let sender = thread::spawn(move || tx.send(&[3; 100]));
    assert_eq!(rx.receive(), Ok(&[3; 100][..]));
    assert_eq!((sender.join().unwrap(), rx.receive_while(|| true)), (Ok(()), Err(ReceiveError::Detached)));
    // A caller's function that panics leaves the begun message the next one.
    let (mut tx, mut rx) = queue(8, 100).unwrap();
    let panicked = catch_unwind(AssertUnwindSafe(|| tx.send_while(&[5; 100], || panic!("asked"))));
    assert!(panicked.is_err());
    assert_eq!(tx.try_send(b"other"), Err(SendError::OtherMessage));
    let sender = thread::spawn(move || tx.send(&[5; 100]));
    assert_eq!(rx.receive(), Ok(&[5; 100][..]));
    assert_eq!((sender.join().unwrap(), rx.receive()), (Ok(()), Err(ReceiveError::Detached)));
    let (_tx, mut rx) = queue(8, 8).unwrap();
    assert_eq!(rx.receive_while(|| false), Err(ReceiveError::WouldBlock));
    assert_eq!(rx.receive_timeout(Duration::ZERO), Err(ReceiveError::WouldBlock));
    let mut barriers = Barrier::new(2).unwrap();
    let (mut one, mut two) = (barriers.pop().unwrap(), barriers.pop().unwrap());
    let (answer, time, used) = timed(|| one.wait_timeout(second));
    assert_eq!(answer, Ok(None));
    assert!(time >= second && used <= FEW_TICKS, "{time:?} {used}");
    assert!(one.wait().is_err(), "it has arrived");
    assert!(two.wait_while(|| true).unwrap().is_some() && one.look().unwrap().is_some());
}

/// A sleeper wakes when the other end does something, and not first when its time is over; the server, which has no time, would
/// sleep forever.
#[test]
fn sleepers_are_woken() {
    let (mut tx, mut rx) = queue(4, 8).unwrap();
    let (mut reply, mut answers) = queue(4, 8).unwrap();
    let rounds = 30;
    let server = thread::spawn(move || {
        while let Ok(bytes) = rx.receive() {
            let number = u64::from_le_bytes(bytes.try_into().unwrap());
            reply.send(&(number + 1).to_le_bytes()).unwrap();
        }
    });
    for n in 0..rounds {
        thread::sleep(Duration::from_millis(n % 3));
        let start = Instant::now();
        tx.send(&n.to_le_bytes()).unwrap();
        assert_eq!(answers.receive_timeout(LONG), Ok(&(n + 1).to_le_bytes()[..]));
        assert!(start.elapsed() < LONG, "a ring was missed");
    }
    tx.close();
    server.join().unwrap();
    assert_eq!(answers.receive(), Err(ReceiveError::Detached));
}

/// Both sides pause at random, over rings of all sizes, so that either sleeps and is woken again and again.
#[test]
fn nothing_is_lost_between_sleeps() {
    // On a small ring the ends take turns at each word, and on a busy machine a turn takes long.
    for (ring, messages) in [(1, 100u64), (4, 300), (64, 3_000)] {
        let (mut tx, mut rx) = queue(ring, 40).unwrap();
        let sender = thread::spawn(move || {
            for n in 0..messages {
                if (n.wrapping_mul(0x9E37_79B9) >> 8).is_multiple_of(64) {
                    thread::sleep(Duration::from_micros(300));
                }
                let message = [n as u8; 40];
                let bytes = &message[..(n % 41) as usize];
                let sent = match n % 5 {
                    0 => tx.send_timeout(bytes, LONG),
                    1 => tx.send_later(bytes),
                    2 => tx.send_slices(&[&bytes[..bytes.len() / 2], &bytes[bytes.len() / 2..]]),
                    _ => tx.send(bytes),
                };
                assert_eq!(sent, Ok(()));
            }
        });
        for n in 0..messages {
            if (n.wrapping_mul(0x85EB_CA6B) >> 8).is_multiple_of(64) {
                thread::sleep(Duration::from_micros(300));
            }
            assert_eq!(rx.receive_timeout(LONG), Ok(&[n as u8; 40][..(n % 41) as usize]));
        }
        sender.join().unwrap();
    }
}

#[test]
fn one_receiver_of_several_is_chosen() {
    let (senders, mut receivers): (Vec<_>, Vec<_>) = (0..4).map(|_| queue(8, 8).unwrap()).unzip();
    {
        let mut all: Vec<_> = receivers.iter_mut().collect();
        assert_eq!(select_timeout(&mut all, SHORT), None);
        assert_eq!(select_while(&mut all, || false), None);
        assert_eq!(select_timeout(&mut [], SHORT), None);
    }
    let threads: Vec<_> = (0u64..)
        .zip(senders)
        .map(|(id, mut tx)| {
            thread::spawn(move || {
                for n in 0..500u64 {
                    if n % 100 == id {
                        thread::sleep(Duration::from_millis(1));
                    }
                    tx.send(&(n << 2 | id).to_le_bytes()).unwrap();
                }
            })
        })
        .collect();
    let (mut next, mut gone) = ([0u64; 4], [false; 4]);
    while gone != [true; 4] {
        let mut all: Vec<_> = receivers.iter_mut().collect();
        let open: Vec<usize> = (0..4).filter(|at| !gone[*at]).collect();
        let mut waiting: Vec<_> = all.drain(..).enumerate().filter(|(at, _)| !gone[*at]).map(|(_, receiver)| receiver).collect();
        let chosen = select(&mut waiting);
        let at = open[chosen];
        match waiting[chosen].try_receive() {
            Ok(bytes) => {
                assert_eq!(bytes, (next[at] << 2 | at as u64).to_le_bytes());
                next[at] += 1;
            }
            Err(why) => {
                assert_eq!(why, ReceiveError::Detached);
                gone[at] = true;
            }
        }
    }
    assert_eq!(next, [500; 4]);
    threads.into_iter().for_each(|thread| thread.join().unwrap());
}

/// Of receivers that are all ready, each has its turn.
#[test]
fn all_receivers_have_their_turn() {
    let (mut senders, mut receivers): (Vec<_>, Vec<_>) = (0..3).map(|_| queue(64, 8).unwrap()).unzip();
    senders.iter_mut().for_each(|tx| (0..10).for_each(|_| tx.send(b"one").unwrap()));
    let mut count = [0; 3];
    for _ in 0..9 {
        let mut all: Vec<_> = receivers.iter_mut().collect();
        let at = select(&mut all);
        count[at] += 1;
        assert_eq!(all[at].try_receive(), Ok(&b"one"[..]));
    }
    assert_eq!(count, [3; 3]);
}

#[test]
fn barriers_sleep_and_wake() {
    static DONE: AtomicU64 = AtomicU64::new(0);
    thread::scope(|scope| {
        for (id, mut barrier) in (0u64..).zip(Barrier::new(6).unwrap()) {
            scope.spawn(move || {
                for phase in 0..40u64 {
                    if phase % 6 == id {
                        thread::sleep(Duration::from_millis(2));
                    }
                    DONE.fetch_add(1, SeqCst);
                    assert_eq!(barrier.wait().unwrap().phase, phase + 1);
                    assert!(DONE.load(SeqCst) >= 6 * (phase + 1));
                }
            });
        }
    });
    // One that goes ends the phase for those who sleep.
    let mut barriers = Barrier::new(2).unwrap();
    let (mut one, two) = (barriers.pop().unwrap(), barriers.pop().unwrap());
    let waits = thread::spawn(move || one.wait_timeout(LONG).unwrap().unwrap());
    thread::sleep(SHORT);
    drop(two);
    assert!(waits.join().unwrap().is_elected);
}

/// Four threads put chunks under a few keys, read them there, and take them out: each chunk has one owner, and none is lost.
#[test]
fn chunks_lie_under_keys() {
    let mut pages = ChunkTable::<u64>::open(16, 5).unwrap();
    let stop = AtomicBool::new(false);
    thread::scope(|scope| {
        let workers: Vec<_> = (0u64..)
            .zip(lembokuj::Area::new(36 * 16, 4).unwrap())
            .map(|(id, mut area)| {
                let mut pages = pages.handle().unwrap();
                scope.spawn(move || {
                    for n in 0..5_000u64 {
                        let key = (n * 7 + id) % 16;
                        let mut chunk = area.alloc(64).unwrap();
                        chunk.write(0, &[key; 8]).unwrap();
                        if let Some(old) = pages.insert(&key, chunk).unwrap() {
                            assert!((0..8).all(|at| old.load(at) == Some(key)));
                        }
                        pages.with(&(n % 16), |chunk| assert!((0..8).all(|at| chunk.load(at) == Some(n % 16))));
                        if n % 3 == 0
                            && let Some(old) = pages.remove(&(n / 3 % 16))
                        {
                            assert_eq!(old.load(7), Some(n / 3 % 16));
                        }
                    }
                })
            })
            .collect();
        workers.into_iter().for_each(|worker| worker.join().unwrap());
        stop.store(true, SeqCst);
    });
    let left = std::iter::from_fn(|| pages.take_any().unwrap()).count();
    assert!(left <= 16 && pages.count() == 0);
}
