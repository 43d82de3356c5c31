//! The keys and records of HFS.

use crate::edition::Edition;
use crate::key::{is_lawful_fork, packed_key_bytes, Key, KEY_LENGTH, KEY_SIZE};
use crate::layout::{Asked, Layout};
use crate::record::{INDEX_KIND, LEAF_KIND};
use crate::side_by_side::{FixedKeys, SideBySide};

pub struct Hfs;

pub const NODE_SIZE: usize = 512;
pub const LEAF_DATA_SIZE: usize = 12;

pub const LEAF_SIZE: usize = KEY_SIZE + LEAF_DATA_SIZE;
pub const INDEX_SIZE: usize = KEY_SIZE + 4;

impl Layout for Hfs {
    type Key<'a> = u64;
    type Leaf = SideBySide<Hfs, LEAF_KIND, LEAF_SIZE>;
    type Index = SideBySide<Hfs, INDEX_KIND, INDEX_SIZE>;

    const KEY_LENGTH: u16 = KEY_LENGTH as u16;
    const AFTER_MAP_RECORD: usize = 4;

    fn find(records: &[[u8; LEAF_SIZE]], asked: u64) -> Option<usize> {
        // Among so few records, comparing the bytes of each key is faster than halving by key order.
        let asked = packed_key_bytes(asked);
        records.iter().position(|record| record[..KEY_SIZE] == asked)
    }
}

impl FixedKeys for Hfs {
    const KEY_SIZE: usize = KEY_SIZE;

    fn key<const SIZE: usize>(record: &[u8; SIZE]) -> u64 {
        key(record).packed()
    }

    fn has_lawful_key<const SIZE: usize>(record: &[u8; SIZE]) -> bool {
        record[0] == KEY_LENGTH && is_lawful_fork(record[1])
    }
}

impl Edition for Hfs {
    fn ask<'a>(file: u32, fork: u8, start: u32) -> Asked<Self::Key<'a>> {
        let exact = u16::try_from(start);
        let nearest = Key { file, fork, start: exact.unwrap_or(u16::MAX) }.packed();
        Asked { nearest, is_exact: exact.is_ok() }
    }
}

pub fn key<const SIZE: usize>(record: &[u8; SIZE]) -> Key {
    Key {
        file: u32::from_be_bytes([record[2], record[3], record[4], record[5]]),
        fork: record[1],
        start: u16::from_be_bytes([record[6], record[7]]),
    }
}
