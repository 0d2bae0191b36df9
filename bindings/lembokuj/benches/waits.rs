//! What waits cost: the processor time of a receiver that waits two seconds, and how long a sleeper takes to wake up.
//! `cargo bench -p lembokuj --bench waits`.

use lembokuj::{Barrier, queue};
use std::thread;
use std::time::{Duration, Instant};

/// The processor time of this thread so far, in milliseconds, as the system counts it.
fn used() -> f64 {
    let stat = std::fs::read_to_string("/proc/thread-self/schedstat").unwrap_or_default();
    stat.split_whitespace().next().and_then(|time| time.parse::<f64>().ok()).unwrap_or(f64::NAN) / 1e6
}

fn idle() {
    let (_tx, mut rx) = queue(64, 8).unwrap();
    let before = used();
    assert!(rx.receive_timeout(Duration::from_secs(2)).is_err());
    println!("a receiver that waits 2 s uses {:.2} ms", used() - before);
    let mut barrier = Barrier::new(2).unwrap();
    let before = used();
    assert_eq!(barrier[0].wait_timeout(Duration::from_secs(2)), Ok(None));
    println!("a caller of a barrier that waits 2 s uses {:.2} ms", used() - before);
}

/// The middle and the greatest of some times, in microseconds.
fn middle(mut times: Vec<f64>) -> (f64, f64) {
    times.sort_by(f64::total_cmp);
    (times[times.len() / 2], times[times.len() - 1])
}

fn wake_up() {
    let (mut tx, mut rx) = queue(64, 8).unwrap();
    let start = Instant::now();
    let receiver = thread::spawn(move || {
        let mut times = Vec::new();
        while let Ok(bytes) = rx.receive() {
            let sent = u64::from_le_bytes(bytes.try_into().unwrap());
            times.push((start.elapsed().as_nanos() as u64 - sent) as f64 / 1e3);
        }
        middle(times)
    });
    for _ in 0..200 {
        thread::sleep(Duration::from_millis(5));
        tx.send(&(start.elapsed().as_nanos() as u64).to_le_bytes()).unwrap();
    }
    drop(tx);
    let (middle, most) = receiver.join().unwrap();
    println!("a receiver that sleeps has its message after {middle:.0} us in the middle, {most:.0} us at most");
}

fn main() {
    idle();
    wake_up();
}
