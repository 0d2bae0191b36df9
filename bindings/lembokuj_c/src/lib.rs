// SPDX-License-Identifier: PostgreSQL
//! The library `lembokuj` for C: `include/lembokuj.h` has every call, who owns what, and which thread may call what.
//!
//! A handle is a pointer to a [`Handle`], whose first word says what it is. So a null pointer, a handle of another kind and
//! a chunk that was freed are told, and answered by a code. What cannot be told is C's duty, as the header says: a handle
//! comes from this library, was not closed, and is used by one call at a time. Every `unsafe` here rests on that.

mod area;
mod barrier;
mod codes;
mod handle;
mod limit;
#[cfg(processes)]
mod processes;
mod queue;
mod table;
mod toc;
mod word_table;

pub use area::*;
pub use barrier::*;
pub use codes::*;
pub use handle::Handle;
pub use limit::Limit;
#[cfg(processes)]
pub use processes::{
    ReapedCounts, lk_region_add_area, lk_region_add_barrier, lk_region_add_queue, lk_region_add_table, lk_region_add_words, lk_region_area,
    lk_region_attach, lk_region_attach_named, lk_region_barrier, lk_region_close, lk_region_create, lk_region_create_named, lk_region_fd,
    lk_region_load, lk_region_open, lk_region_reap, lk_region_receiver, lk_region_sender, lk_region_table, lk_region_unlink,
};
pub use queue::*;
pub use table::*;
pub use toc::*;
pub use word_table::*;
