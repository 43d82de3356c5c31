//! The keys and records of HFS Plus.

use crate::edition::Edition;
use crate::key::is_lawful_fork;
use crate::layout::{Asked, Layout};
use crate::record::{INDEX_KIND, LEAF_KIND};
use crate::side_by_side::{FixedKeys, SideBySide};

pub struct HfsPlus;

const KEY_SIZE: usize = 12;
const LEAF_SIZE: usize = KEY_SIZE + 64;
const INDEX_SIZE: usize = KEY_SIZE + 4;

impl Layout for HfsPlus {
    type Key<'a> = u128;
    type Leaf = SideBySide<HfsPlus, LEAF_KIND, LEAF_SIZE>;
    type Index = SideBySide<HfsPlus, INDEX_KIND, INDEX_SIZE>;

    const KEY_LENGTH: u16 = 10;
    const AFTER_MAP_RECORD: usize = 6;

    fn find(records: &[[u8; LEAF_SIZE]], asked: u128) -> Option<usize> {
        records.binary_search_by_key(&asked, Self::key).ok()
    }
}

impl FixedKeys for HfsPlus {
    const KEY_SIZE: usize = KEY_SIZE;

    fn key<const SIZE: usize>(record: &[u8; SIZE]) -> u128 {
        // Byte 3 is the pad, which no rule judges.
        let file = u32::from_be_bytes([record[4], record[5], record[6], record[7]]);
        let start = u32::from_be_bytes([record[8], record[9], record[10], record[11]]);
        packed(file, record[2], start)
    }

    fn has_lawful_key<const SIZE: usize>(record: &[u8; SIZE]) -> bool {
        u16::from_be_bytes([record[0], record[1]]) == Self::KEY_LENGTH && is_lawful_fork(record[2])
    }
}

impl Edition for HfsPlus {
    fn ask<'a>(file: u32, fork: u8, start: u32) -> Asked<Self::Key<'a>> {
        Asked { nearest: packed(file, fork, start), is_exact: true }
    }
}

fn packed(file: u32, fork: u8, start: u32) -> u128 {
    // The file number has the high half to itself, so that nothing is shifted across the halves.
    u128::from(file) << 64 | u128::from(fork) << 32 | u128::from(start)
}
