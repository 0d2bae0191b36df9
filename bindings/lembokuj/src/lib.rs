// SPDX-License-Identifier: PostgreSQL
//! Objects that the threads of one process share, over regions of words: queues, a hash table, an allocator, barriers, tables of
//! contents. They are those of Lembokuj's runtime for parallel queries, in the manner of PostgreSQL's `shm_mq`, `dshash`, `dsa`,
//! `barrier` and `shm_toc`. Other processes can't see them: what lies in a region is reached through Rust's own references. Those that several
//! processes share are in the module `processes`, with the feature of that name, on Linux.
//!
//! | you want | begin at | what was proved below it |
//! |---|---|---|
//! | messages from one thread to another | [`queue`], [`select`] | what a receiver took is whole messages, a prefix of what was sent |
//! | a hash table for many threads | [`Table`] | each key's calls are, in one legal history, those of one cell |
//! | owned things under keys | [`OwnedTable`] | nothing: it is code of this crate over [`Table`] |
//! | chunks of words for everybody | [`Area`] | live chunks never overlap, and a request is refused only for its cause |
//! | threads that wait for one another | [`Barrier`] | a phase ends when all who take part have arrived, and elects one |
//! | a directory that all threads read | [`TocBuilder`] | a key leads to the chunk that was entered under it |
//! | plain words, each with one owner | [`Part`] | a word is read as its owner left it |
//!
//! The code below was proved in Rattle for every interleaving of threads. Here its contracts are erased, and rustc compiles what is
//! left; this crate checks at run time what those contracts require of callers, and adds the waits that sleep, handles on demand, and
//! the conversions of values. **Nothing of this crate, nor of what rustc makes of the rest, is proved.**
//! `docs/EMBEDDING.md` of the repository lists what lies in between, and how it is tested; nothing at all is said of progress,
//! fairness, deadlock or time.
//!
//! A call that makes something shared gives a *handle* for each caller, or one that makes the others on demand. A handle is used by
//! one thread at a time, may go to another thread, and different handles are used at once; the compiler sees to all of this.
//! What is shared lives until the last handle of it is gone.
//!
//! **Waits** of queues and barriers stay awake for some microseconds and then sleep; they have forms with a time and with a function
//! that is asked. A call of a table or an area may meet a lock that another call holds for a short while: it spins, yields the
//! processor, and then sleeps until the lock is given back.
//!
//! **Cost**, by the figures in `docs/PERFORMANCE.md` of the repository, in nanoseconds a call of this crate in one thread:
//!
//! | | here | std | |
//! |---|--:|---|--:|
//! | a message of 8 bytes, sent and received, shown at once / later | 57 / 50 | `sync_channel` of vectors | 45 |
//! | a message of 1,000 bytes, likewise | 701 / 708 | `sync_channel` of vectors | 58 |
//! | `get`, 1,000 / 1,000,000 keys | 33 / 366 | `Mutex<HashMap>` | 29 / 188 |
//! | `insert` under a key that is there | 51 / 434 | `Mutex<HashMap>` | 31 / 296 |
//! | `update` | 83 / 423 | `Mutex<HashMap>` | 31 / 326 |
//! | `update_with` | 52 / 418 | `Mutex<HashMap>` | 31 / 326 |
//! | a chunk of 24 / 600 bytes, made and given back | 98 / 99 | `Box` | 26 / 56 |
//! | a phase of a barrier, 2 / 4 threads | 340 / 4,105 | `Barrier` | 3,655 / 10,489 |
//!
//! **Memory.** Calls that make something take some, and so do those that list entries, take any of them, or split, join and freeze
//! parts; their answer is an error (of `handle`, None) if there is none. The others ask for none, with these exceptions: a call that
//! sleeps at the lock of a table or an area enters a list that may grow (it yields instead if there is no memory), and std makes its
//! record of a thread that it has not started; a future clones its executor's `Waker`.
//!
//! **Hostile keys.** The hash of a [`Table`] is fixed and known (HashDoS), but in one that is made with a seed
//! ([`Table::open_with_seed`]). **A new chunk** of an [`Area`] holds whatever its last
//! owner left there.

#![cfg_attr(not(processes), forbid(unsafe_code))]
#![deny(unsafe_code)]
#![warn(missing_docs)]

mod area;
mod barrier;
mod bell;
mod causes;
mod limit;
mod link;
mod owned;
#[cfg(processes)]
pub mod processes;
mod queue;
mod region;
mod rows;
mod select;
mod shared;
mod table;
mod text;
mod toc;
mod word_table;
mod words;

pub use rattle_std::alloc::AllocError;

pub use area::{Area, AreaError, Chunk, NoSpace};
pub use barrier::{Arrival, Barrier, BarrierError};
pub use owned::{ChunkTable, OwnedError, OwnedTable};
pub use queue::{QueueError, ReceiveError, Rx, SendError, Tx, queue};
pub use region::{Frozen, Part, PartError, RegionError};
pub use rows::NoWord;
pub use select::{select, select_timeout, select_while};
pub use table::{Busy, Table, TableError, table_pages};
pub use text::{Bytes, Text};
pub use toc::{Toc, TocBuilder, TocChunk, TocError};
pub use word_table::{Swapped, WordTable};
pub use words::{RawWords, Words};

use causes::errors;

/// The leave to wait, which the calls beneath ask for.
const HOST: rattle_std::HostRuntime = rattle_std::HostRuntime::new();

/// No word of its objects is at a place above this one: a region has at most 2^26 words, a gigabyte.
const MOST_WORDS: u64 = 1 << 26;
