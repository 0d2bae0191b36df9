//! The ends of queues as futures, by a small executor of one thread, while other threads are at the other ends.
#![cfg(feature = "async")]

use lembokuj::{ReceiveError, SendError, queue};
use std::future::Future;
use std::pin::{Pin, pin};
use std::sync::Arc;
use std::task::{Context, Poll, Wake, Waker};
use std::thread;
use std::time::Duration;

/// A task's waker, which wakes the executor's thread.
struct Unpark(thread::Thread);

impl Wake for Unpark {
    fn wake(self: Arc<Self>) {
        self.0.unpark();
    }
}

/// Polls futures, each after each wake-up, until all are ready.
fn run(mut futures: Vec<Pin<&mut dyn Future<Output = ()>>>) {
    let waker = Waker::from(Arc::new(Unpark(thread::current())));
    let mut context = Context::from_waker(&waker);
    loop {
        futures.retain_mut(|future| future.as_mut().poll(&mut context) == Poll::Pending);
        if futures.is_empty() {
            return;
        }
        thread::park();
    }
}

#[test]
fn tasks_wait_for_threads_and_for_each_other() {
    let (mut to_task, mut from_thread) = queue(8, 100).unwrap();
    let (mut to_thread, mut from_task) = queue(4, 100).unwrap();
    let (mut one, mut two) = queue(2, 100).unwrap();
    let source = thread::spawn(move || {
        for n in 0..300u64 {
            if n % 50 == 0 {
                thread::sleep(Duration::from_millis(1));
            }
            to_task.send(&n.to_le_bytes()).unwrap();
        }
    });
    let sink = thread::spawn(move || {
        let mut sum = 0;
        while let Ok(bytes) = from_task.receive() {
            // Each message is longer than the ring.
            assert_eq!(bytes.len(), 96);
            sum += u64::from_le_bytes(bytes[..8].try_into().unwrap());
        }
        sum
    });
    let first = pin!(async move {
        while let Ok(bytes) = from_thread.receive_async().await {
            let message: [u8; 8] = bytes.try_into().unwrap();
            one.send_async(&message).await.unwrap();
        }
    });
    let second = pin!(async move {
        loop {
            match two.receive_async().await {
                Ok(bytes) => to_thread.send_async(&bytes.repeat(12)).await.unwrap(),
                Err(why) => break assert_eq!(why, ReceiveError::Detached),
            }
        }
    });
    run(vec![first, second]);
    source.join().unwrap();
    assert_eq!(sink.join().unwrap(), (0..300).sum());
    let (mut tx, rx) = queue(2, 8).unwrap();
    drop(rx);
    run(vec![pin!(async move { assert_eq!(tx.send_async(b"late").await, Err(SendError::Detached)) })]);
}
