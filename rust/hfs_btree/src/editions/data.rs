//! The data of a record, which are 12 bytes in HFS and 64 in HFS Plus.

use super::Edition;
use std::fmt;
use std::ops::Deref;

/// The data of a found or seen record, as a slice of 12 or 64 bytes; empty if there is none.
#[derive(Clone, Copy, PartialEq, Eq)]
pub struct Data {
    bytes: [u8; 64],
    len: usize,
}

impl Data {
    pub const NONE: Data = Data { bytes: [0; 64], len: 0 };

    /// All the bytes that a call writes; those beyond the data are 0.
    pub const fn whole(&self) -> &[u8; 64] {
        &self.bytes
    }

    /// What a call has written, of which the edition says how much is data where there are any.
    pub(super) fn read(edition: u32, is_there: bool, bytes: [u8; 64]) -> Data {
        let len = match is_there {
            false => 0,
            true if edition == u32::from(Edition::Hfs) => 12,
            true => 64,
        };
        Data { bytes, len }
    }
}

impl From<[u8; 12]> for Data {
    fn from(data: [u8; 12]) -> Data {
        let mut bytes = [0; 64];
        bytes[..12].copy_from_slice(&data);
        Data { bytes, len: 12 }
    }
}

impl From<[u8; 64]> for Data {
    fn from(bytes: [u8; 64]) -> Data {
        Data { bytes, len: 64 }
    }
}

impl Deref for Data {
    type Target = [u8];

    fn deref(&self) -> &[u8] {
        &self.bytes[..self.len]
    }
}

impl fmt::Debug for Data {
    fn fmt(&self, f: &mut fmt::Formatter<'_>) -> fmt::Result {
        let (used, unused) = self.bytes.split_at(self.len);
        write!(f, "{used:02x?}")?;
        // Bytes beyond the data would be a fault of the call, and equality sees them.
        if unused.iter().any(|&byte| byte != 0) {
            write!(f, " and beyond {unused:02x?}")?;
        }
        Ok(())
    }
}
