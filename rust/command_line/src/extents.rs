//! Extents, as pairs of first block and block count.

use crate::json::Value;
use std::fmt;

/// The pairs of an extents record: three of 16-bit numbers in HFS, eight of 32-bit ones in HFS Plus.
#[derive(Clone, Debug, PartialEq, Eq)]
pub struct Pairs(Vec<[u32; 2]>);

impl Pairs {
    /// Reads 12 bytes of HFS or 64 of HFS Plus.
    pub fn read(data: &[u8]) -> Pairs {
        let numbers: Vec<u32> = match data.len() {
            12 => {
                data.chunks_exact(2).map(|b| u32::from(u16::from_be_bytes([b[0], b[1]]))).collect()
            }
            _ => {
                data.chunks_exact(4).map(|b| u32::from_be_bytes([b[0], b[1], b[2], b[3]])).collect()
            }
        };
        Pairs(numbers.chunks_exact(2).map(|pair| [pair[0], pair[1]]).collect())
    }

    pub fn new(pairs: impl IntoIterator<Item = [u32; 2]>) -> Pairs {
        Pairs(pairs.into_iter().collect())
    }

    /// Those that have blocks.
    pub fn used(&self) -> Pairs {
        Pairs::new(self.0.iter().copied().filter(|[_, count]| *count > 0))
    }

    pub fn append(&mut self, more: Pairs) {
        self.0.extend(more.0);
    }

    /// How many blocks they have together.
    pub fn block_count(&self) -> u32 {
        self.0.iter().map(|[_, count]| count).sum()
    }

    pub fn as_slice(&self) -> &[[u32; 2]] {
        &self.0
    }
}

impl fmt::Display for Pairs {
    fn fmt(&self, f: &mut fmt::Formatter<'_>) -> fmt::Result {
        let shown: Vec<String> =
            self.0.iter().map(|[first, count]| format!("{first} {count}")).collect();
        f.write_str(&shown.join(", "))
    }
}

impl From<&Pairs> for Value {
    fn from(pairs: &Pairs) -> Value {
        pairs.0.iter().map(|pair| pair.to_vec()).collect::<Vec<_>>().into()
    }
}

/// The fork that a key or a question names.
#[derive(Clone, Copy, Debug, PartialEq, Eq)]
pub enum Fork {
    Data,
    Resource,
}

impl Fork {
    pub fn byte(self) -> u8 {
        match self {
            Fork::Data => 0x00,
            Fork::Resource => 0xFF,
        }
    }
}
