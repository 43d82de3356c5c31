//! What a key is and how keys are ordered.

pub const KEY_SIZE: usize = 8;
pub const KEY_LENGTH: u8 = 7;

/// The bits of a file number, a fork byte and a start block.
const PACKED_BITS: u32 = 32 + 8 + 16;

/// A key of an extents record, without its length byte.
#[derive(Clone, Copy, Debug, PartialEq, Eq)]
pub struct Key {
    pub file: u32,
    pub fork: u8,
    pub start: u16,
}

impl Key {
    /// One number per key whose numeric order is the key order.
    pub fn packed(self) -> u64 {
        u64::from(self.file) << 24 | u64::from(self.fork) << 16 | u64::from(self.start)
    }

    /// Answers -1, 0 or 1 as this key is below, equal to or above the other.
    pub fn compare(self, other: Key) -> i32 {
        self.packed().cmp(&other.packed()) as i32
    }
}

pub fn is_lawful_fork(fork: u8) -> bool {
    fork == 0x00 || fork == 0xFF
}

/// The bytes of a packed key as they stand in a record, length byte first.
pub fn packed_key_bytes(packed: u64) -> [u8; KEY_SIZE] {
    let [_, file @ .., fork, start_high, start_low] = packed.to_be_bytes();
    [KEY_LENGTH, fork, file[0], file[1], file[2], file[3], start_high, start_low]
}

/// Whether a number is what a key with a lawful fork byte packs to.
pub fn is_lawful_packed(packed: u64) -> bool {
    packed >> PACKED_BITS == 0 && is_lawful_fork((packed >> 16) as u8)
}
