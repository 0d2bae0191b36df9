//! Records as text.

use crate::ByteRecord;
use rattle_std::alloc::AllocError;
use rattle_std::vec::Vec;

/// How to write: as the crate does where nothing is said.
#[derive(Clone, Copy, Debug, Default)]
pub struct WriterBuilder;

impl WriterBuilder {
    pub fn new() -> WriterBuilder {
        WriterBuilder
    }

    /// A writer that adds to these bytes.
    pub fn from_writer(self, bytes: Vec<u8>) -> Writer<Vec<u8>> {
        Writer { bytes }
    }
}

/// Writes records behind one another.
#[derive(Debug)]
pub struct Writer<W> {
    bytes: W,
}

impl Writer<Vec<u8>> {
    /// Adds the line of a record. Where memory runs out, a part of it may have been added.
    pub fn write_byte_record(&mut self, record: &ByteRecord) -> Result<(), AllocError> {
        let start = self.bytes.len();
        for (at, field) in record.iter().enumerate() {
            if at > 0 {
                self.bytes.push(b',')?;
            }
            self.put_field(field)?;
        }
        if self.bytes.len() == start {
            self.bytes.extend_from_slice(b"\"\"")?;
        }
        self.bytes.push(b'\n')
    }

    fn put_field(&mut self, field: &[u8]) -> Result<(), AllocError> {
        if !field.iter().any(|byte| matches!(*byte, b',' | b'"' | b'\r' | b'\n')) {
            return self.bytes.extend_from_slice(field);
        }
        self.bytes.push(b'"')?;
        for byte in field {
            if *byte == b'"' {
                self.bytes.push(b'"')?;
            }
            self.bytes.push(*byte)?;
        }
        self.bytes.push(b'"')
    }

    /// The text.
    pub fn into_inner(self) -> Result<Vec<u8>, AllocError> {
        Ok(self.bytes)
    }
}

#[cfg(test)]
mod tests {
    use super::*;
    use rattle_std::alloc::Global;

    fn line(fields: &[&[u8]]) -> std::vec::Vec<u8> {
        let mut record = ByteRecord::new(Global);
        for field in fields {
            record.push_field(field).unwrap();
        }
        let mut writer = WriterBuilder::new().from_writer(Vec::new(Global));
        writer.write_byte_record(&record).unwrap();
        writer.into_inner().unwrap().into_std()
    }

    #[test]
    fn writes_quotes_where_they_are_due() {
        assert_eq!(line(&[b"a", b"", b"b c"]), b"a,,b c\n");
        assert_eq!(line(&[b"a,b", b"c\"d", b"e\r", b"f\n"]), b"\"a,b\",\"c\"\"d\",\"e\r\",\"f\n\"\n");
        assert_eq!(line(&[b""]), b"\"\"\n");
        assert_eq!(line(&[]), b"\"\"\n");
        assert_eq!(line(&[b"", b""]), b",\n");
    }
}
