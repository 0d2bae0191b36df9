//! One record in memory that is filled anew for each.

use rattle_std::alloc::{AllocError, Global};
use rattle_std::vec::Vec;

/// A list of fields: their bytes behind one another, and where each ends.
#[derive(Debug)]
pub struct ByteRecord {
    pub(crate) bytes: Vec<u8>,
    pub(crate) ends: Vec<usize>,
}

impl ByteRecord {
    /// No fields; takes no memory.
    pub fn new(alloc: Global) -> ByteRecord {
        ByteRecord {
            bytes: Vec::new(alloc),
            ends: Vec::new(alloc),
        }
    }

    /// No fields again, in the same memory.
    pub fn clear(&mut self) {
        self.bytes.clear();
        self.ends.clear();
    }

    /// Adds a field.
    pub fn push_field(&mut self, field: &[u8]) -> Result<(), AllocError> {
        self.bytes.extend_from_slice(field)?;
        self.end_field()
    }

    /// The bytes since the last field are one.
    #[inline]
    pub(crate) fn end_field(&mut self) -> Result<(), AllocError> {
        self.ends.push(self.bytes.len())
    }

    /// How many fields it has.
    pub fn len(&self) -> usize {
        self.ends.len()
    }

    pub fn is_empty(&self) -> bool {
        self.ends.is_empty()
    }

    /// The field at a place.
    #[inline]
    pub fn get(&self, at: usize) -> Option<&[u8]> {
        let end = *self.ends.get(at)?;
        let start = if at == 0 { 0 } else { self.ends[at - 1] };
        Some(&self.bytes[start..end])
    }

    /// The bytes of all fields, one behind the other.
    pub fn as_slice(&self) -> &[u8] {
        self.bytes.as_slice()
    }

    /// The fields in order.
    pub fn iter(&self) -> impl Iterator<Item = &[u8]> {
        (0..self.len()).filter_map(|at| self.get(at))
    }
}
