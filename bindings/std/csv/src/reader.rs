//! The records of bytes in memory.

use crate::ByteRecord;
use rattle_std::alloc::{AllocError, Global};

/// Why a record was not read.
#[derive(Debug)]
pub struct Error {
    kind: ErrorKind,
}

/// The kinds of errors that a caller here tells apart.
#[derive(Debug)]
pub enum ErrorKind {
    OutOfMemory,
    /// A record of another length than the first, where the reader is not flexible; this one always is.
    UnequalLengths { expected_len: u64, len: u64 },
}

impl Error {
    pub fn kind(&self) -> &ErrorKind {
        &self.kind
    }
}

impl From<AllocError> for Error {
    fn from(_: AllocError) -> Error {
        Error {
            kind: ErrorKind::OutOfMemory,
        }
    }
}

/// How to read: only without headers and flexible, which is how the programs read.
#[derive(Clone, Copy, Debug)]
pub struct ReaderBuilder {
    has_headers: bool,
    is_flexible: bool,
}

impl Default for ReaderBuilder {
    fn default() -> ReaderBuilder {
        ReaderBuilder::new()
    }
}

impl ReaderBuilder {
    pub fn new() -> ReaderBuilder {
        ReaderBuilder {
            has_headers: true,
            is_flexible: false,
        }
    }

    pub fn has_headers(mut self, has_them: bool) -> ReaderBuilder {
        self.has_headers = has_them;
        self
    }

    pub fn flexible(mut self, is_it: bool) -> ReaderBuilder {
        self.is_flexible = is_it;
        self
    }

    /// A reader of these bytes.
    pub fn from_reader(self, _alloc: Global, bytes: &[u8]) -> Reader<'_> {
        assert!(!self.has_headers && self.is_flexible, "this stand-in reads records without headers, of any length");
        Reader {
            rest: bytes.strip_prefix(b"\xEF\xBB\xBF").unwrap_or(bytes),
        }
    }
}

/// Goes through the records of bytes.
#[derive(Debug)]
pub struct Reader<'a> {
    rest: &'a [u8],
}

impl Reader<'_> {
    /// Reads the next record, and says whether there was one.
    pub fn read_byte_record(&mut self, record: &mut ByteRecord) -> Result<bool, Error> {
        record.clear();
        let mut rest = self.rest;
        while let [b'\r' | b'\n', after @ ..] = rest {
            rest = after;
        }
        if rest.is_empty() {
            self.rest = rest;
            return Ok(false);
        }
        loop {
            let (end, after) = read_field(record, rest)?;
            record.end_field()?;
            rest = after;
            if end != Some(b',') {
                self.rest = rest;
                return Ok(true);
            }
        }
    }
}

/// Reads a field. Gives the byte that ended it, if it was not the end, and what comes behind that.
fn read_field<'a>(record: &mut ByteRecord, bytes: &'a [u8]) -> Result<(Option<u8>, &'a [u8]), AllocError> {
    let mut rest = bytes;
    if let [b'"', quoted @ ..] = rest {
        rest = read_quoted(record, quoted)?;
    }
    let len = plain_len(rest);
    record.bytes.extend_from_slice(&rest[..len])?;
    match rest[len..] {
        [end, ref after @ ..] => Ok((Some(end), after)),
        [] => Ok((None, &[])),
    }
}

/// Reads a quoted text, from behind the quote that opened it, and gives what comes behind the one that ends it.
fn read_quoted<'a>(record: &mut ByteRecord, bytes: &'a [u8]) -> Result<&'a [u8], AllocError> {
    let mut rest = bytes;
    loop {
        let Some(len) = rest.iter().position(|byte| *byte == b'"') else {
            record.bytes.extend_from_slice(rest)?;
            return Ok(&[]);
        };
        if rest.get(len + 1) != Some(&b'"') {
            record.bytes.extend_from_slice(&rest[..len])?;
            return Ok(&rest[len + 1..]);
        }
        record.bytes.extend_from_slice(&rest[..=len])?;
        rest = &rest[len + 2..];
    }
}

/// How many bytes stand before the next comma or end of line.
fn plain_len(bytes: &[u8]) -> usize {
    bytes
        .iter()
        .position(|byte| matches!(*byte, b',' | b'\r' | b'\n'))
        .unwrap_or(bytes.len())
}

#[cfg(test)]
mod tests {
    use super::*;

    /// The machine of the statement, a byte at a time, with the names that it has there.
    fn slow(bytes: &[u8]) -> Vec<Vec<Vec<u8>>> {
        #[derive(Clone, Copy, PartialEq)]
        enum State {
            StartRecord,
            StartField,
            InField,
            InQuoted,
            AfterQuote,
        }
        let bytes = bytes.strip_prefix(b"\xEF\xBB\xBF").unwrap_or(bytes);
        let (mut records, mut fields, mut field, mut state) = (vec![], vec![], vec![], State::StartRecord);
        for byte in bytes {
            let is_end = matches!(*byte, b'\r' | b'\n');
            state = match state {
                State::StartRecord if is_end => State::StartRecord,
                State::StartRecord | State::StartField if *byte == b'"' => State::InQuoted,
                State::InQuoted if *byte == b'"' => State::AfterQuote,
                State::AfterQuote if *byte == b'"' => {
                    field.push(*byte);
                    State::InQuoted
                }
                State::InQuoted => {
                    field.push(*byte);
                    State::InQuoted
                }
                _ if *byte == b',' => {
                    fields.push(std::mem::take(&mut field));
                    State::StartField
                }
                _ if is_end => {
                    fields.push(std::mem::take(&mut field));
                    records.push(std::mem::take(&mut fields));
                    State::StartRecord
                }
                _ => {
                    field.push(*byte);
                    State::InField
                }
            };
        }
        if state != State::StartRecord {
            fields.push(field);
            records.push(fields);
        }
        records
    }

    fn fast(bytes: &[u8]) -> Vec<Vec<Vec<u8>>> {
        let mut reader = ReaderBuilder::new().has_headers(false).flexible(true).from_reader(Global, bytes);
        let (mut records, mut record) = (vec![], ByteRecord::new(Global));
        while reader.read_byte_record(&mut record).unwrap() {
            records.push(record.iter().map(|field| field.to_vec()).collect());
        }
        records
    }

    /// All texts of up to seven bytes over the bytes that matter.
    #[test]
    fn reads_what_the_machine_reads() {
        let bytes = [b'a', b',', b'"', b'\r', b'\n'];
        for len in 0..8u32 {
            for number in 0..5usize.pow(len) {
                let text: Vec<u8> = (0..len).map(|at| bytes[number / 5usize.pow(at) % 5]).collect();
                assert_eq!(fast(&text), slow(&text), "{:?}", String::from_utf8_lossy(&text));
            }
        }
    }

    #[test]
    fn leaves_out_a_byte_order_mark() {
        assert_eq!(fast(b"\xEF\xBB\xBF\"a\",b\n"), [[b"a".to_vec(), b"b".to_vec()]]);
        assert_eq!(fast(b"\xEF\xBBa"), [[b"\xEF\xBBa".to_vec()]]);
    }
}
