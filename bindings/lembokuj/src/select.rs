//! A wait for any of several receivers.

use crate::Rx;
use crate::bell::{Bell, Parker, asleep, awake};
use crate::limit::Limit;
use std::sync::Arc;
use std::time::Duration;

/// Waits until one of the receivers has a message, or its sender has gone, and gives its place in the list: its next call does not
/// wait. Of several that are ready it gives the one that was chosen longest ago. With no receivers it waits forever. If one of the queues is
/// between processes, it looks every millisecond, since another process wakes only who waits for one queue.
///
/// ```
/// use lembokuj::{ReceiveError, queue, select};
///
/// let (mut tx, mut one) = queue(64, 8)?;
/// let (other, mut two) = queue(64, 8)?;
/// tx.send(b"one")?;
/// assert_eq!(select(&mut [&mut one, &mut two]), 0);
/// assert_eq!(one.try_receive(), Ok(&b"one"[..]));
/// drop(other);
/// assert_eq!(select(&mut [&mut one, &mut two]), 1);
/// assert_eq!(two.try_receive(), Err(ReceiveError::Detached));
/// # Ok::<(), Box<dyn std::error::Error>>(())
/// ```
pub fn select(receivers: &mut [&mut Rx]) -> usize {
    loop {
        if let Some(at) = select_by(receivers, &mut Limit::Forever) {
            return at;
        }
    }
}

/// As [`select`], but waits no longer than this time: None then, after it has asked whether the processes of senders live.
#[must_use]
pub fn select_timeout(receivers: &mut [&mut Rx], time: Duration) -> Option<usize> {
    select_by(receivers, &mut Limit::after(time))
}

/// As [`select`], but waits only while the function says so, which is asked when the wait begins to sleep and then about every
/// 10 ms: None then.
#[must_use]
pub fn select_while(receivers: &mut [&mut Rx], mut go_on: impl FnMut() -> bool) -> Option<usize> {
    select_by(receivers, &mut Limit::While(&mut go_on))
}

fn select_by(receivers: &mut [&mut Rx], limit: &mut Limit<'_>) -> Option<usize> {
    let mut found = awake(&mut || ready(receivers));
    if found.is_none() {
        let parker = receivers.iter().find_map(|receiver| receiver.link().bell()).map(|bell| Arc::clone(bell.parker()));
        found = asleep_at(parker.as_ref(), receivers, limit);
    }
    let last = receivers.iter().map(|receiver| receiver.chosen).max().unwrap_or(0);
    if let Some(at) = found {
        receivers[at].chosen = last + 1;
    }
    found
}

/// How long the thread sleeps if some of the senders are other processes, which can't wake it here.
const NAP: Duration = Duration::from_millis(1);

/// After how many naps it asks the system whether they live.
const NAPS: u32 = 50;

/// The thread sleeps at this parker until one of the receivers is ready: the bell of each rings there meanwhile.
fn asleep_at(parker: Option<&Arc<Parker>>, receivers: &mut [&mut Rx], limit: &mut Limit<'_>) -> Option<usize> {
    let bells = || receivers.iter().filter_map(|receiver| receiver.link().bell());
    let nap = (bells().count() < receivers.len()).then_some(NAP);
    if let Some(parker) = parker {
        bells().for_each(|bell| bell.attach_thread(parker));
    }
    let mut naps = 0;
    let nobodys = Parker::default();
    let mut found = asleep(parker.map_or(&nobodys, |parker| &**parker), limit, nap, &mut || {
        naps += 1;
        if nap.is_some() && naps % NAPS == 0 {
            receivers.iter().for_each(|receiver| receiver.link().look_at_peer());
        }
        ready(receivers)
    });
    // A caller that waits for a short time again and again has to learn of a death too, though it never comes to that many naps.
    if found.is_none() && nap.is_some() {
        receivers.iter().for_each(|receiver| receiver.link().look_at_peer());
        found = ready(receivers);
    }
    receivers.iter().filter_map(|receiver| receiver.link().bell()).for_each(Bell::detach);
    found
}

/// The place of the receiver that is ready and was chosen longest ago.
fn ready(receivers: &mut [&mut Rx]) -> Option<usize> {
    let are_ready = receivers.iter_mut().enumerate().filter_map(|(at, receiver)| receiver.is_ready().then_some((receiver.chosen, at)));
    are_ready.min().map(|(_, at)| at)
}
