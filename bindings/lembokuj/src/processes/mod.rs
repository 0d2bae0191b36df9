//! Objects that several processes share: queues, hash tables, areas, barriers and words in one file in memory, which each process
//! maps at another address. They are the objects of this crate in another place, over the same code below, with the same names of calls and
//! the same errors; this module is there with the feature `processes`, on Linux.
//!
//! Take it if the callers are processes, or if one of them may be killed while the others go on. For the threads of one process the
//! calls of the crate itself, [`crate::queue`], [`crate::Table`] and so on, are the same objects in memory of the process's own: they
//! take any keys and values, have no file, and need no answer for a caller that died.
//!
//! ```no_run
//! use lembokuj::processes::Region;
//! # fn main() -> Result<(), Box<dyn std::error::Error>> {
//! // The leader:
//! let mut builder = Region::create_named("lk.sums", 1 << 16)?;
//! builder.queue(1, 1024, 64)?;
//! builder.table(2, 200, 4)?;
//! let region = builder.open();
//! let mut rx = region.receiver(1)?;
//! // Another program:
//! let region = Region::attach_named("lk.sums")?;
//! let mut tx = region.sender(1)?;
//! tx.send(b"hello")?;
//! # Ok(())
//! # }
//! ```
//!
//! **The maker** creates a region, lays objects out in it, each under a key, and opens it; then nothing is added any more.
//! **The others** attach, by a descriptor or by a name, and take handles by key. A handle is with one process at a time, and
//! is used by one thread at a time.
//!
//! **A process that ends**, however it ends, is to the others a thread that makes no further step. That it has ended is known
//! from the system, and never from a time that has passed. Nobody takes a lock from it: who needs the value that it guards is
//! answered `OwnerDied`, and everything else goes on. An end of a queue answers `PeerDied` after all whole messages. A barrier
//! goes on without it. [`Region::reap`] gives its handles to others.
//!
//! **After a fork** the child attaches anew, and does not use its parent's handles; if it drops them, nothing happens.
//!
//! **Memory.** To lay out a region, attach to it, take a handle and ask whether a process lives takes some; without it such a call may
//! end the process.
//!
//! **Trust.** Everybody that may write the file can spoil it for all: the processes that have it are one domain of trust. What a file
//! says of its layout is looked at before anything is used ([`AttachError`]); what processes change later is looked at
//! only so far that no word outside of it is touched, and answers `Damaged` then.
//!
//! The code below was proved in Rattle for every interleaving of threads. Here its contracts are erased, its words lie in a
//! mapping, and a process stands for a thread: nothing of that is proved (`docs/PROCESSES.md` of the repository).

#![allow(unsafe_code)]

mod area;
mod barrier;
mod directory;
mod map;
mod queue;
mod reap;
mod region;
mod sys;
mod table;

pub use area::{Area, Chunk, Ticket};
pub use map::AttachError;
pub use reap::Reaped;
pub use region::{BuildError, Builder, Region, TakeError};
pub use table::Table;

pub(crate) use barrier::Party;
pub(crate) use queue::End;
