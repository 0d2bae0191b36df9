//! Stands for the toolchain's `csv`, as far as the programs use it: the records of bytes in memory, and records as text.
//!
//! The rules are those that the toolchain's crate states, which are those of `csv-core`. Reading: a byte order mark at the
//! start is left out; fields are parted by commas; a carriage return, a line feed or both end a record; lines with nothing
//! in them are none; a quote at the start of a field opens a quoted text, in which two quotes are one and which ends at a
//! lone one, and what comes after it up to the next comma or end of line belongs to the field too; anywhere else a quote
//! is a byte as any other; the end of the bytes ends the last record. Writing: a field is put in quotes where it has a
//! comma, a quote, a carriage return or a line feed; a record of one empty field, or of none, is two quotes; a line feed
//! ends each record.

#![forbid(unsafe_code)]

mod reader;
mod record;
mod writer;

pub use reader::{Error, ErrorKind, Reader, ReaderBuilder};
pub use record::ByteRecord;
pub use writer::{Writer, WriterBuilder};
