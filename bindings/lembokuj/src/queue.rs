//! A queue of messages between one sender and one receiver.
//!
//! Messages lie on a ring of words. What the calls beneath ask of a caller is kept here: an end is used only before its
//! detach, with the region of its queue; and while a part of a message is on the ring, only that message is sent.

use crate::bell::Bell;
use crate::errors;
use crate::limit::Limit;
use crate::link::{Common, Damage, Link, Side};
use crate::shared::{Opaque, reserved, shared};
use mq_handle::{ReceiveAnswer, Receiver, SendAnswer, Sender, attach};
use mq_ring::{Ring, is_ring_size};
use rattle_std::alloc::{AllocError, Global};
use region_words::Region;
use std::sync::Arc;
use std::time::Duration;

/// The longest message of any queue, in bytes.
const MOST_BYTES: u32 = 1 << 20;

/// The words of a ring besides its cells: the two counts and the flag.
const RING_HEAD: u64 = 3;

/// Why there is no queue.
#[derive(Clone, Copy, Debug, PartialEq, Eq)]
#[non_exhaustive]
pub enum QueueError {
    /// The number of the ring's words is no power of two up to 2^20.
    RingSize,
    /// The greatest message is longer than 2^20 bytes.
    MessageSize,
    /// There is no memory.
    Memory,
}

errors!(QueueError {
    RingSize => "a ring has a power of two of words, up to 1048576",
    MessageSize => "a message has at most 1048576 bytes",
    Memory => "out of memory",
});

/// Why a message was not sent.
#[derive(Clone, Copy, Debug, PartialEq, Eq)]
#[non_exhaustive]
pub enum SendError {
    /// The receiver has gone. No message comes through any more.
    Detached,
    /// The message is longer than the queue's greatest; or, for a call that sends it whole or not at all, than the ring, so that it
    /// never has room: [`Tx::send`], or [`Tx::try_send_part`] again and again, send it by parts. Nothing was stored.
    TooLong,
    /// The ring has no room for the whole message, or the wait for it was ended. Nothing was stored: the message is the caller's.
    WouldBlock,
    /// A part of the message is on the ring: send the same message again. Only calls that send by parts answer this.
    Begun,
    /// A part of another message is on the ring, after the answer [`SendError::Begun`]: send that one again first. Nothing was
    /// stored.
    OtherMessage,
    /// Of a queue between processes: the receiver's process ended before it left.
    PeerDied,
    /// Of a queue between processes: the region is damaged.
    Damaged,
}

errors!(SendError {
    Detached => "the receiver is gone",
    TooLong => "the message is longer than the queue's greatest, or than the ring, where only `send` and `try_send_part` take it",
    WouldBlock => "the ring has no room for the message",
    Begun => "a part of the message is on the ring; send the same message again",
    OtherMessage => "a part of another message is on the ring; send that one again first",
    PeerDied => "the receiver's process has ended",
    Damaged => "the region is damaged",
});

/// Why a receiver has no message.
#[derive(Clone, Copy, Debug, PartialEq, Eq)]
#[non_exhaustive]
pub enum ReceiveError {
    /// There is no whole message yet.
    WouldBlock,
    /// The sender has gone, and all its messages were received.
    Detached,
    /// Of a queue between processes: the sender's process ended before it left, and all whole messages that it had shown were
    /// received.
    PeerDied,
    /// Of a queue between processes: the region is damaged.
    Damaged,
}

errors!(ReceiveError {
    WouldBlock => "no whole message is there",
    Detached => "the sender is gone, and all its messages were received",
    PeerDied => "the sender's process has ended, and all its messages were received",
    Damaged => "the region is damaged",
});

impl From<Damage> for SendError {
    fn from(_: Damage) -> SendError {
        SendError::Damaged
    }
}

impl From<Damage> for ReceiveError {
    fn from(_: Damage) -> ReceiveError {
        ReceiveError::Damaged
    }
}

/// The sending end. If it is dropped, the receiver gets what was sent and then [`ReceiveError::Detached`].
#[derive(Debug)]
pub struct Tx {
    link: Link,
    end: Opaque<Sender>,
    max: u32,
    ring_words: u64,
    /// What a call found that ends the queue: the receiver has gone, or its process, or the region is damaged.
    over: Option<SendError>,
    /// The message of which a part is on the ring. Its memory was reserved with the queue, and is kept.
    pending: Vec<u8>,
    is_pending: bool,
}

/// The receiving end. If it is dropped, the sender is answered [`SendError::Detached`].
#[derive(Debug)]
pub struct Rx {
    link: Link,
    end: Opaque<Receiver>,
    /// What a wait for several receivers found here, which the next call returns.
    held: Option<Taken>,
    /// When such a wait last chose this one.
    pub(crate) chosen: u64,
}

/// What a look for a message found.
type Taken = Result<ReceiveAnswer, Damage>;

/// Makes a queue over a ring of `ring_words` words of 8 bytes, a power of two up to 2^20, for messages of at most `max_bytes`
/// bytes, 2^20 at most. On the ring a message takes a word and its bytes, rounded up to 8. A message may be longer than the ring,
/// and then needs a receiver at work. It takes memory for the ring and for two messages; no call of its ends takes any.
///
/// # Errors
///
/// [`QueueError`] has the three causes.
///
/// ```
/// use lembokuj::queue;
///
/// let (mut tx, mut rx) = queue(1024, 64)?;
/// let sender = std::thread::spawn(move || {
///     for n in 0..1000u64 {
///         tx.send(&n.to_le_bytes())?;
///     }
///     Ok::<(), lembokuj::SendError>(())
/// });
/// let mut sum = 0;
/// while let Ok(bytes) = rx.receive() {
///     sum += u64::from_le_bytes(bytes.try_into()?);
/// }
/// sender.join().unwrap()?;
/// assert_eq!(sum, 499500);
/// # Ok::<(), Box<dyn std::error::Error>>(())
/// ```
///
/// A queue has one receiver:
///
/// ```compile_fail,E0599
/// let (_tx, rx) = lembokuj::queue(1024, 64).unwrap();
/// let second = rx.clone();
/// ```
///
/// which one thread has at a time:
///
/// ```compile_fail,E0382
/// let (_tx, mut rx) = lembokuj::queue(1024, 64).unwrap();
/// std::thread::spawn(move || { let _ = rx.receive(); });
/// let _ = rx.receive();
/// ```
///
/// And an answer is not passed over:
///
/// ```compile_fail
/// #![deny(unused_must_use)]
/// let (mut tx, _rx) = lembokuj::queue(1024, 64).unwrap();
/// tx.send(b"to somebody");
/// ```
pub fn queue(ring_words: u64, max_bytes: u32) -> Result<(Tx, Rx), QueueError> {
    if !is_ring_size(ring_words) {
        return Err(QueueError::RingSize);
    }
    if max_bytes > MOST_BYTES {
        return Err(QueueError::MessageSize);
    }
    // Word 0 stands for no place.
    let words = ring_words + RING_HEAD + 1;
    let (region, mut part) = Region::new(Global, words as usize).map_err(|_| QueueError::Memory)?;
    let chunk = part.split_chunk(&region, 1, ring_words + RING_HEAD);
    let (tx, rx) = Ring::create(&region, chunk, ring_words, 0, max_bytes);
    let (sender, receiver) = attach(Global, tx, rx).map_err(|_| QueueError::Memory)?;
    let common = Common {
        words: Opaque(region),
        sender: Bell::new().map_err(|_| QueueError::Memory)?,
        receiver: Bell::new().map_err(|_| QueueError::Memory)?,
    };
    let common = shared(common).map_err(|_| QueueError::Memory)?;
    let tx = Tx::over(Link::Threads(Arc::clone(&common), Side::Sender), sender, max_bytes, ring_words);
    let rx = Rx::over(Link::Threads(common, Side::Receiver), receiver);
    Ok((tx.map_err(|_| QueueError::Memory)?, rx))
}

/// A message, in one slice or in several whose bytes lie in a row.
#[derive(Clone, Copy)]
enum Message<'a> {
    One(&'a [u8]),
    Parts(&'a [&'a [u8]]),
}

impl Message<'_> {
    fn len(self) -> usize {
        match self {
            Message::One(bytes) => bytes.len(),
            Message::Parts(parts) => parts.iter().fold(0, |sum: usize, part| sum.saturating_add(part.len())),
        }
    }

    fn is(self, bytes: &[u8]) -> bool {
        match self {
            Message::One(message) => message == bytes,
            Message::Parts(parts) => parts.iter().copied().flatten().eq(bytes),
        }
    }

    /// Puts its bytes into a list, which has room for them.
    fn put_into(self, list: &mut Vec<u8>) {
        list.clear();
        match self {
            Message::One(message) => list.extend_from_slice(message),
            Message::Parts(parts) => parts.iter().for_each(|part| list.extend_from_slice(part)),
        }
    }
}

/// How a message goes to the ring.
#[derive(Clone, Copy)]
struct Way {
    /// The receiver may see it at once.
    flush: bool,
    /// What has room of it is stored, also if that is a part.
    by_parts: bool,
}

const AT_ONCE: Way = Way {
    flush: true,
    by_parts: false,
};
const LATER: Way = Way {
    flush: false,
    by_parts: false,
};

impl Tx {
    /// The sending end of a queue over a ring on which nothing was put. It takes memory for the greatest message.
    pub(crate) fn over(link: Link, end: Sender, max: u32, ring_words: u64) -> Result<Tx, AllocError> {
        Ok(Tx {
            pending: reserved(max as usize)?,
            link,
            end: Opaque(end),
            max,
            ring_words,
            over: None,
            is_pending: false,
        })
    }

    /// Sends a message without waiting, as a whole or not at all, and shows it to the receiver at once. It costs one load, a store
    /// for each word and one for the count. The receiver gives room back when it has taken a quarter of the ring, or finds
    /// nothing there: so a message of more than three quarters may have to wait for the latter.
    ///
    /// # Errors
    ///
    /// [`SendError`]; nothing was stored, unless it is [`SendError::Begun`] for the rest of a message that was begun by parts.
    pub fn try_send(&mut self, message: &[u8]) -> Result<(), SendError> {
        self.keeping(Message::One(message), |tx, message| tx.try_put(message, AT_ONCE))
    }

    /// As [`Tx::try_send`], but the receiver may see the message only after a later call or [`Tx::flush`]: at most a quarter of
    /// the ring stays unseen. It saves the store of the count.
    ///
    /// # Errors
    ///
    /// As [`Tx::try_send`].
    pub fn try_send_later(&mut self, message: &[u8]) -> Result<(), SendError> {
        self.keeping(Message::One(message), |tx, message| tx.try_put(message, LATER))
    }

    /// Stores as much of a message as has room. After [`SendError::Begun`] the message belongs to this queue: until a call with
    /// the same message has answered `Ok`, any other is refused. So a message that is longer than the ring is sent without waiting.
    ///
    /// # Errors
    ///
    /// [`SendError::WouldBlock`] if nothing had room, [`SendError::Begun`] if a part had.
    pub fn try_send_part(&mut self, message: &[u8]) -> Result<(), SendError> {
        let by_parts = Way {
            by_parts: true,
            ..AT_ONCE
        };
        self.keeping(Message::One(message), |tx, message| tx.try_put(message, by_parts))
    }

    /// Sends a message, and waits while the ring is full: awake for some microseconds, and then asleep until the receiver has done
    /// something. It waits forever if the receiver neither receives nor goes.
    ///
    /// # Errors
    ///
    /// [`SendError::Detached`], [`SendError::TooLong`], [`SendError::OtherMessage`].
    pub fn send(&mut self, message: &[u8]) -> Result<(), SendError> {
        self.keeping(Message::One(message), |tx, message| tx.put(message, true, &mut Limit::Forever))
    }

    /// As [`Tx::send`], but the receiver may see the message only later, as by [`Tx::try_send_later`].
    ///
    /// # Errors
    ///
    /// As [`Tx::send`].
    pub fn send_later(&mut self, message: &[u8]) -> Result<(), SendError> {
        self.keeping(Message::One(message), |tx, message| tx.put(message, false, &mut Limit::Forever))
    }

    /// As [`Tx::send`], but waits no longer than this time.
    ///
    /// # Errors
    ///
    /// As [`Tx::send`]; and at the end of the time [`SendError::WouldBlock`], with nothing stored, or [`SendError::Begun`] for a
    /// message that is longer than the ring.
    pub fn send_timeout(&mut self, message: &[u8], time: Duration) -> Result<(), SendError> {
        self.keeping(Message::One(message), |tx, message| tx.put(message, true, &mut Limit::after(time)))
    }

    /// As [`Tx::send`], but waits only while the function says so, which is asked when the wait begins to sleep and then about every
    /// 10 ms.
    ///
    /// # Errors
    ///
    /// As [`Tx::send_timeout`].
    pub fn send_while(&mut self, message: &[u8], mut go_on: impl FnMut() -> bool) -> Result<(), SendError> {
        self.keeping(Message::One(message), |tx, message| tx.put(message, true, &mut Limit::While(&mut go_on)))
    }

    /// Sends slices as one message, their bytes in a row, as [`Tx::send`] does: the receiver gets the same as of a message in
    /// one. The bytes are copied to the ring by way of 512 bytes of the stack, for each of which the slices are gone over.
    ///
    /// # Errors
    ///
    /// As [`Tx::send`].
    pub fn send_slices(&mut self, slices: &[&[u8]]) -> Result<(), SendError> {
        self.keeping(Message::Parts(slices), |tx, message| tx.put(message, true, &mut Limit::Forever))
    }

    /// Sends slices as one message, their bytes in a row, as [`Tx::try_send`] does: nothing is stored unless all of it has room. It
    /// costs as much as [`Tx::send_slices`].
    ///
    /// # Errors
    ///
    /// As [`Tx::try_send`].
    pub fn try_send_slices(&mut self, slices: &[&[u8]]) -> Result<(), SendError> {
        self.keeping(Message::Parts(slices), |tx, message| tx.try_put(message, AT_ONCE))
    }

    /// Shows the receiver all that was sent.
    pub fn flush(&mut self) {
        if self.over.is_none() && self.link.call(|words| self.end.0.flush(words)).is_err() {
            self.over = Some(SendError::Damaged);
        }
        self.link.ring();
    }

    /// Ends the queue for the sender: as dropping it.
    ///
    /// ```compile_fail,E0382
    /// let (mut tx, _rx) = lembokuj::queue(1024, 64).unwrap();
    /// tx.close();
    /// let _ = tx.send(b"too late");
    /// ```
    pub fn close(self) {}

    /// Sends a message for a task: as [`Tx::send`], but pending while the ring is full. If it is given up while it is pending, a
    /// message that is longer than the ring may have been begun. Between processes nobody wakes a task: there each poll that is
    /// pending asks for the next one at once, so the executor stays awake.
    ///
    /// # Errors
    ///
    /// As [`Tx::send`].
    #[cfg(feature = "async")]
    pub async fn send_async(&mut self, message: &[u8]) -> Result<(), SendError> {
        std::future::poll_fn(|task| self.poll_send(task, message)).await
    }

    /// One poll of [`Tx::send_async`].
    #[cfg(feature = "async")]
    pub fn poll_send(&mut self, task: &mut std::task::Context<'_>, message: &[u8]) -> std::task::Poll<Result<(), SendError>> {
        use std::task::Poll;
        let message = Message::One(message);
        let way = Way {
            flush: true,
            by_parts: self.is_longer_than_ring(message),
        };
        let answer = self.keeping(message, |tx, message| tx.try_put(message, way));
        if !lacks_room(answer) {
            return Poll::Ready(answer);
        }
        self.link.attach_task(task);
        let answer = self.keeping(message, |tx, message| tx.try_put(message, way));
        if lacks_room(answer) {
            return Poll::Pending;
        }
        self.link.detach_task();
        Poll::Ready(answer)
    }

    /// Whether the words of a message, its length and its bytes, are more than the ring has.
    fn is_longer_than_ring(&self, message: Message<'_>) -> bool {
        1 + message.len().div_ceil(8) as u64 > self.ring_words
    }

    /// Makes a call of which nothing hinders the message, and keeps it if a part of it is on the ring then.
    fn keeping(
        &mut self,
        message: Message<'_>,
        call: impl FnOnce(&mut Tx, Message<'_>) -> Result<(), SendError>,
    ) -> Result<(), SendError> {
        if message.len() > self.max as usize {
            return Err(SendError::TooLong);
        }
        if let Some(over) = self.over {
            return Err(over);
        }
        if self.is_pending && !message.is(&self.pending) {
            return Err(SendError::OtherMessage);
        }
        let answer = call(self, message);
        if answer == Err(SendError::Begun) {
            self.keep(message);
        }
        answer
    }

    /// A part of the message is on the ring, and no other may come next.
    fn keep(&mut self, message: Message<'_>) {
        if !self.is_pending {
            message.put_into(&mut self.pending);
            self.is_pending = true;
        }
    }

    /// One try of the ring's end. What is left of a message that was begun goes by parts, whatever the way.
    fn put_once(&mut self, message: Message<'_>, way: Way) -> Result<SendAnswer, Damage> {
        let Way { flush, by_parts } = way;
        let by_parts = by_parts || self.is_pending;
        let end = &mut self.end.0;
        self.link.call(|words| match (message, by_parts) {
            (Message::One(bytes), true) => end.try_send(words, bytes, flush),
            (Message::One(bytes), false) => end.try_send_whole(words, bytes, flush),
            (Message::Parts(parts), true) => end.try_send_parts(words, parts, flush),
            (Message::Parts(parts), false) => end.try_send_parts_whole(words, parts, flush),
        })
    }

    /// One try.
    fn try_put(&mut self, message: Message<'_>, way: Way) -> Result<(), SendError> {
        let answer = self.put_once(message, way);
        self.link.ring();
        let over = match answer {
            Ok(SendAnswer::Sent) => {
                self.is_pending = false;
                return Ok(());
            }
            Ok(SendAnswer::WouldBlock { stored: 0 }) => return Err(SendError::WouldBlock),
            Ok(SendAnswer::WouldBlock { .. }) => return Err(SendError::Begun),
            Ok(SendAnswer::TooLong { .. }) => return Err(SendError::TooLong),
            Ok(SendAnswer::Detached) if self.link.has_peer_died() => SendError::PeerDied,
            Ok(SendAnswer::Detached) => SendError::Detached,
            Err(damage) => damage.into(),
        };
        self.over = Some(over);
        Err(over)
    }

    /// One try before a wait. If the caller's function is asked in between, it may panic after a part was stored, so the message is
    /// kept at once.
    fn try_put_within(&mut self, message: Message<'_>, way: Way, is_asked: bool) -> Result<(), SendError> {
        let answer = self.try_put(message, way);
        if is_asked && answer == Err(SendError::Begun) {
            self.keep(message);
        }
        answer
    }

    /// Sends with a wait. Without a limit what has room is stored at once, since the message is sent in the end.
    fn put(&mut self, message: Message<'_>, flush: bool, limit: &mut Limit<'_>) -> Result<(), SendError> {
        let by_parts = matches!(limit, Limit::Forever) || self.is_longer_than_ring(message);
        let is_asked = matches!(limit, Limit::While(_));
        let way = Way { flush, by_parts };
        let mut answer = self.try_put_within(message, way, is_asked);
        if !lacks_room(answer) {
            return answer;
        }
        let link = self.link.clone();
        let done = link.wait(limit, || {
            answer = self.try_put_within(message, way, is_asked);
            (!lacks_room(answer)).then_some(answer)
        });
        done.unwrap_or(answer)
    }
}

/// Whether a further try may come to something else.
fn lacks_room(answer: Result<(), SendError>) -> bool {
    matches!(answer, Err(SendError::WouldBlock | SendError::Begun))
}

impl Drop for Tx {
    fn drop(&mut self) {
        let Tx { link, end, .. } = self;
        link.leave(|words| end.0.detach(words));
    }
}

impl Rx {
    /// The receiving end of a queue over a ring off which nothing was taken.
    pub(crate) fn over(link: Link, end: Receiver) -> Rx {
        Rx {
            link,
            end: Opaque(end),
            held: None,
            chosen: 0,
        }
    }

    /// The next message, if a whole one is there, without waiting. It is lent from the receiver's own memory up to its next call.
    /// A word costs one load; each byte is copied once.
    ///
    /// # Errors
    ///
    /// [`ReceiveError::WouldBlock`] if there is none yet, [`ReceiveError::Detached`] if there comes none any more.
    pub fn try_receive(&mut self) -> Result<&[u8], ReceiveError> {
        let answer = self.next();
        self.told(answer)
    }

    /// The next message; it waits while there is none: awake for some microseconds, and then asleep until the sender has done
    /// something. It waits forever if the sender neither sends nor goes.
    ///
    /// # Errors
    ///
    /// [`ReceiveError::Detached`].
    pub fn receive(&mut self) -> Result<&[u8], ReceiveError> {
        self.wait(&mut Limit::Forever)
    }

    /// As [`Rx::receive`], but waits no longer than this time.
    ///
    /// # Errors
    ///
    /// [`ReceiveError::Detached`], and at the end of the time [`ReceiveError::WouldBlock`].
    pub fn receive_timeout(&mut self, time: Duration) -> Result<&[u8], ReceiveError> {
        self.wait(&mut Limit::after(time))
    }

    /// As [`Rx::receive`], but waits only while the function says so, which is asked when the wait begins to sleep and then about
    /// every 10 ms.
    ///
    /// # Errors
    ///
    /// [`ReceiveError::Detached`], and once the function has said no [`ReceiveError::WouldBlock`].
    pub fn receive_while(&mut self, mut go_on: impl FnMut() -> bool) -> Result<&[u8], ReceiveError> {
        self.wait(&mut Limit::While(&mut go_on))
    }

    /// The message that was received last, up to the next call that looks for one; empty if that found none.
    #[must_use]
    pub fn message(&self) -> &[u8] {
        self.end.0.message()
    }

    /// Ends the queue for the receiver: as dropping it.
    pub fn close(self) {}

    /// The next message for a task: as [`Rx::receive`], but pending while there is none. Between processes nobody wakes a task: as by
    /// [`Tx::send_async`].
    ///
    /// # Errors
    ///
    /// [`ReceiveError::Detached`].
    #[cfg(feature = "async")]
    pub async fn receive_async(&mut self) -> Result<&[u8], ReceiveError> {
        std::future::poll_fn(|task| self.poll_ready(task)).await;
        self.try_receive()
    }

    /// Pending until the next try has another answer than [`ReceiveError::WouldBlock`].
    #[cfg(feature = "async")]
    pub fn poll_ready(&mut self, task: &mut std::task::Context<'_>) -> std::task::Poll<()> {
        use std::task::Poll;
        if self.is_ready() {
            return Poll::Ready(());
        }
        self.link.attach_task(task);
        if self.is_ready() {
            self.link.detach_task();
            return Poll::Ready(());
        }
        Poll::Pending
    }

    /// Whether the next try has another answer than [`ReceiveError::WouldBlock`]. It takes the message off the ring, which the next
    /// call then gives.
    pub fn is_ready(&mut self) -> bool {
        if self.held.is_none() {
            self.held = Some(self.take()).filter(|answer| is_something(*answer));
        }
        self.held.is_some()
    }

    /// How it reaches the other end.
    pub(crate) fn link(&self) -> &Link {
        &self.link
    }

    fn next(&mut self) -> Taken {
        match self.held.take() {
            Some(answer) => answer,
            None => self.take(),
        }
    }

    fn take(&mut self) -> Taken {
        let Rx { link, end, .. } = self;
        let answer = link.call(|words| end.0.try_receive(words));
        link.ring();
        answer
    }

    fn told(&self, answer: Taken) -> Result<&[u8], ReceiveError> {
        match answer? {
            ReceiveAnswer::Message => Ok(self.end.0.message()),
            ReceiveAnswer::WouldBlock => Err(ReceiveError::WouldBlock),
            ReceiveAnswer::Detached if self.link.has_peer_died() => Err(ReceiveError::PeerDied),
            ReceiveAnswer::Detached => Err(ReceiveError::Detached),
        }
    }

    fn wait(&mut self, limit: &mut Limit<'_>) -> Result<&[u8], ReceiveError> {
        let mut answer = self.next();
        if !is_something(answer) {
            let link = self.link.clone();
            let found = link.wait(limit, || Some(self.take()).filter(|answer| is_something(*answer)));
            answer = found.unwrap_or(Ok(ReceiveAnswer::WouldBlock));
        }
        self.told(answer)
    }
}

/// Whether a further look may not find something else.
fn is_something(answer: Taken) -> bool {
    answer != Ok(ReceiveAnswer::WouldBlock)
}

impl Drop for Rx {
    fn drop(&mut self) {
        let Rx { link, end, .. } = self;
        link.leave(|words| end.0.detach(words));
    }
}
