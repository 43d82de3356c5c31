//! Keys, and a dense numbering of the lawful ones in key order.

use crate::format::Format;
use crate::node::put_what_fits;
use crate::rng::Rng;
use crate::tree_key::TreeKey;

/// A key of an extents record, without its length and pad.
#[derive(Clone, Copy, Debug, PartialEq, Eq, PartialOrd, Ord)]
pub struct Key {
    // The field order is the key order, so the derived comparison is the right one.
    pub file: u32,
    pub fork: u8,
    pub start: u32,
}

impl Key {
    pub const fn new(file: u32, fork: u8, start: u32) -> Key {
        Key { file, fork, start }
    }

    /// The lawful HFS key with the given rank.
    pub fn from_rank(rank: u64) -> Key {
        Format::HFS.key_of_rank(rank.into())
    }

    /// The rank of a lawful HFS key.
    pub fn rank(self) -> u64 {
        Format::HFS.rank_of(self) as u64
    }

    /// The eight bytes of an HFS key, length byte first.
    pub fn bytes(self) -> [u8; 8] {
        let f = self.file.to_be_bytes();
        let s = (self.start as u16).to_be_bytes();
        [7, self.fork, f[0], f[1], f[2], f[3], s[0], s[1]]
    }

    /// The twelve bytes of an HFS Plus key, length first.
    pub fn plus_bytes(self, pad: u8) -> [u8; 12] {
        let f = self.file.to_be_bytes();
        let s = self.start.to_be_bytes();
        [0, 10, self.fork, pad, f[0], f[1], f[2], f[3], s[0], s[1], s[2], s[3]]
    }
}

impl TreeKey for Key {
    fn size_in_leaf(&self, format: Format) -> usize {
        format.key_size()
    }

    fn put_in_leaf(&self, format: Format, node: &mut [u8], at: usize) {
        self.put_in_index(format, node, at);
    }

    fn put_in_index(&self, format: Format, node: &mut [u8], at: usize) {
        let pad = format.pad_at().and_then(|pad_at| node.get(at + pad_at));
        let pad = pad.copied().unwrap_or(0);
        put_what_fits(node, at, &format.key_bytes(*self, pad));
    }

    fn any(rng: &mut Rng, format: Format) -> Key {
        // A random part of all ranks, as there may be more of them than 64 bits can number.
        let part = u128::from(rng.next_u64());
        format.key_of_rank((part * (format.lawful_keys() >> 32)) >> 32)
    }

    fn any_data(rng: &mut Rng, format: Format) -> Vec<u8> {
        let mut data = vec![0; format.data_size()];
        rng.fill(&mut data);
        data
    }
}

impl Format {
    /// The number of lawful keys: every file has two forks.
    pub fn lawful_keys(self) -> u128 {
        1 << (32 + 1 + self.start_bits())
    }

    /// The lawful key with the given rank; consecutive ranks leave no lawful key between them.
    pub fn key_of_rank(self, rank: u128) -> Key {
        let bits = self.start_bits();
        let fork = if rank >> bits & 1 == 0 { 0x00 } else { 0xFF };
        let start = rank & ((1 << bits) - 1);
        Key::new((rank >> (bits + 1)) as u32, fork, start as u32)
    }

    /// The rank of a lawful key.
    pub fn rank_of(self, key: Key) -> u128 {
        let fork = u128::from(key.fork == 0xFF);
        (u128::from(key.file) << 1 | fork) << self.start_bits() | u128::from(key.start)
    }

    /// The bytes of a key as they stand in a record; HFS has no pad.
    pub fn key_bytes(self, key: Key, pad: u8) -> Vec<u8> {
        self.by_edition(key.bytes().to_vec(), key.plus_bytes(pad).to_vec())
    }
}
