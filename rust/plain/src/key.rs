//! Keys as numbers, in whose order keys are compared.

pub const KEY_SIZE: usize = 8;

/// The bits of a packed key.
const KEY_BITS: u32 = 56;

const KEY_LENGTH: u64 = 7;

/// Above every key with a right length byte, so it stands for no bound.
pub const UNBOUNDED: u64 = (KEY_LENGTH + 1) << KEY_BITS;

pub fn is_lawful_fork(fork: u8) -> bool {
    matches!(fork, 0x00 | 0xFF)
}

/// Whether a number is what a key with a lawful fork byte packs to.
pub fn is_lawful_packed(packed: u64) -> bool {
    packed >> KEY_BITS == 0 && is_lawful_fork((packed >> 16) as u8)
}

pub fn packed(file: u32, fork: u8, start: u16) -> u64 {
    u64::from(file) << 24 | u64::from(fork) << 16 | u64::from(start)
}

/// The key that a record has for a packed one.
pub fn with_length(packed: u64) -> u64 {
    KEY_LENGTH << KEY_BITS | packed
}

/// The key, with a right length byte in place of the one it has.
pub fn with_right_length(key: u64) -> u64 {
    with_length(key & ((1 << KEY_BITS) - 1))
}

pub fn has_right_length(key: u64) -> bool {
    key == with_right_length(key)
}

/// The key that a record starts with.
#[inline(always)]
pub fn key<const SIZE: usize>(record: &[u8; SIZE]) -> u64 {
    key_and_fork(record).0
}

/// The key that a record starts with, packed under its length byte, and its fork byte.
///
/// With the length on top, keys that ascend from one with a right length to one below `UNBOUNDED`
/// have it all.
#[inline(always)]
pub fn key_and_fork<const SIZE: usize>(record: &[u8; SIZE]) -> (u64, u8) {
    let bytes = record.first_chunk::<KEY_SIZE>().expect("a record has a key");
    // Length, fork, file and start are turned into file, start, length and fork, the lower half of
    // these into fork, start and length, and then the length goes from the bottom to the top.
    let turned = u64::from_be_bytes(*bytes).rotate_left(16);
    let lower = (turned as u32).rotate_right(8);
    let key = (turned >> 32 << 32 | u64::from(lower)).rotate_right(8);
    (key, turned as u8)
}
