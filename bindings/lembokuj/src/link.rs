//! How the two ends of a queue reach its words, and how one of them sleeps until the other has done something: threads at a bell each,
//! processes at a word each of the file that both map.

use crate::bell::Bell;
use crate::limit::Limit;
#[cfg(processes)]
use crate::processes::End;
use crate::shared::Opaque;
use region_words::Region;
use std::sync::Arc;

/// Something in a region that processes share is not as this library leaves it.
#[derive(Clone, Copy, Debug, PartialEq, Eq)]
pub(crate) struct Damage;

/// Which end.
#[derive(Clone, Copy, Debug, PartialEq, Eq)]
pub(crate) enum Side {
    Sender,
    Receiver,
}

/// What the ends of a queue between threads share: the words, and what each of them sleeps at.
#[derive(Debug)]
pub(crate) struct Common {
    pub(crate) words: Opaque<Region>,
    pub(crate) sender: Bell,
    pub(crate) receiver: Bell,
}

impl Common {
    fn bell(&self, side: Side) -> &Bell {
        match side {
            Side::Sender => &self.sender,
            Side::Receiver => &self.receiver,
        }
    }
}

/// What one end has of its queue besides the end itself.
#[derive(Clone, Debug)]
pub(crate) enum Link {
    /// The region is memory of this process, and the other end is a thread's.
    Threads(Arc<Common>, Side),
    /// The region lies in a mapping.
    #[cfg(processes)]
    Processes(Arc<End>),
}

impl Link {
    /// Makes a call with the queue's words.
    #[inline]
    pub(crate) fn call<R>(&self, call: impl FnOnce(&Region) -> R) -> Result<R, Damage> {
        match self {
            Link::Threads(common, _) => Ok(call(&common.words.0)),
            #[cfg(processes)]
            Link::Processes(end) => end.call(call),
        }
    }

    /// Wakes the other end, if it may sleep.
    #[inline]
    pub(crate) fn ring(&self) {
        match self {
            Link::Threads(common, Side::Sender) => common.receiver.ring(),
            Link::Threads(common, Side::Receiver) => common.sender.ring(),
            #[cfg(processes)]
            Link::Processes(end) => end.wake_peer(),
        }
    }

    /// What a try comes to, which is made again each time that the other end has done something, until it comes to something, or the
    /// limit is reached.
    pub(crate) fn wait<T>(&self, limit: &mut Limit<'_>, attempt: impl FnMut() -> Option<T>) -> Option<T> {
        match self {
            Link::Threads(common, side) => common.bell(*side).wait(limit, attempt),
            #[cfg(processes)]
            Link::Processes(end) => end.wait(limit, attempt),
        }
    }

    /// What this end's thread sleeps at; None between processes.
    pub(crate) fn bell(&self) -> Option<&Bell> {
        match self {
            Link::Threads(common, side) => Some(common.bell(*side)),
            #[cfg(processes)]
            Link::Processes(_) => None,
        }
    }

    /// The next ring wakes this task. Between processes nobody can, so the task is woken at once.
    #[cfg(feature = "async")]
    pub(crate) fn attach_task(&self, task: &std::task::Context<'_>) {
        match self.bell() {
            Some(bell) => bell.attach_task(task.waker()),
            None => task.waker().wake_by_ref(),
        }
    }

    /// No task is woken any more.
    #[cfg(feature = "async")]
    pub(crate) fn detach_task(&self) {
        if let Some(bell) = self.bell() {
            bell.detach();
        }
    }

    /// Asks the system whether the process of the other end has ended; if so, the next try learns it.
    pub(crate) fn look_at_peer(&self) {
        #[cfg(processes)]
        if let Link::Processes(end) = self {
            end.look_at_peer();
        }
    }

    /// Whether the other end is gone because its process ended.
    pub(crate) fn has_peer_died(&self) -> bool {
        match self {
            Link::Threads(..) => false,
            #[cfg(processes)]
            Link::Processes(end) => end.peer_is_lost(),
        }
    }

    /// Ends the queue on this side, by a call that detaches the end; nothing in a child of the process that has it.
    pub(crate) fn leave(&self, detach: impl FnOnce(&Region)) {
        match self {
            Link::Threads(common, _) => {
                detach(&common.words.0);
                self.ring();
            }
            #[cfg(processes)]
            Link::Processes(end) => end.leave(detach),
        }
    }
}
