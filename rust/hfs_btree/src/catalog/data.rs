//! The data of a catalog record, which are 70, 102 or 46 bytes.

use super::entry::Entry;
use std::fmt;
use std::ops::Deref;

/// The data of a found or seen record, as a slice of 70, 102 or 46 bytes; empty if there is none.
#[derive(Clone, Copy, PartialEq, Eq)]
pub struct Data {
    bytes: [u8; 102],
    data_type: u32,
    size: u32,
}

impl Data {
    pub const NONE: Data = Data { bytes: [0; 102], data_type: 0, size: 0 };

    /// What a call has written.
    pub(super) fn read(data_type: u32, size: u32, bytes: [u8; 102]) -> Data {
        Data { bytes, data_type, size }
    }

    /// Which kind of record it is, with its fields; none if there are no data.
    pub fn entry(&self) -> Option<Entry> {
        Entry::read(self)
    }

    /// The type as a call has said it: 1 to 4, or 0 if there are no data.
    pub fn data_type(&self) -> u32 {
        self.data_type
    }

    /// All the bytes that a call writes; those beyond the data are 0.
    pub const fn whole(&self) -> &[u8; 102] {
        &self.bytes
    }
}

impl From<&[u8]> for Data {
    /// The data of a record, as they stand in its image: not more than 102 bytes, the type first.
    fn from(data: &[u8]) -> Data {
        let mut bytes = [0; 102];
        bytes[..data.len()].copy_from_slice(data);
        Data { bytes, data_type: bytes[0].into(), size: data.len() as u32 }
    }
}

impl Deref for Data {
    type Target = [u8];

    fn deref(&self) -> &[u8] {
        &self.bytes[..self.bytes.len().min(self.size as usize)]
    }
}

impl fmt::Debug for Data {
    fn fmt(&self, f: &mut fmt::Formatter<'_>) -> fmt::Result {
        let Data { bytes, data_type, size } = self;
        write!(f, "type {data_type}, {size} bytes of {bytes:02x?}")
    }
}
