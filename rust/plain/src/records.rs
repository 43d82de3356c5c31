//! What stands in a node of the tree, and whether its offset words are right.

use crate::key::KEY_SIZE;
use crate::node::{is_of, record_count, Node, NODE_SIZE, RECORDS_AT};

pub const LEAF_SIZE: usize = KEY_SIZE + 12;
pub const INDEX_SIZE: usize = KEY_SIZE + 4;

/// The bytes of the offset words of 35 records, the most that there are.
const WORDS_SIZE: usize = 2 * (most_records(INDEX_SIZE) + 1);

/// The records of a node with this kind, this level and a possible count; all else may be wrong.
#[inline(always)]
pub fn records_in<const SIZE: usize>(node: &Node, kind: u8, level: u8) -> Option<&[[u8; SIZE]]> {
    let count = record_count(node);
    let right = is_of(node, kind, level) && (1..=most_records(SIZE)).contains(&count);
    right.then(|| &node[RECORDS_AT..].as_chunks().0[..count])
}

/// Whether the node ends in the offset words of so many records side by side.
#[inline(always)]
pub fn has_right_offsets<const SIZE: usize>(node: &Node, count: usize) -> bool {
    let words = const { &offset_words(SIZE) };
    node.ends_with(&words[WORDS_SIZE - 2 * (count + 1)..])
}

/// The records of a node that has passed its tests.
pub fn records<const SIZE: usize>(node: &Node) -> &[[u8; SIZE]] {
    &node[RECORDS_AT..].as_chunks().0[..record_count(node)]
}

/// Where a record starts in its node.
pub fn start<const SIZE: usize>(record: usize) -> usize {
    RECORDS_AT + record * SIZE
}

/// The data after the key of a leaf record.
pub fn data_of(record: &[u8; LEAF_SIZE]) -> &[u8; LEAF_SIZE - KEY_SIZE] {
    record.last_chunk().expect("a record is longer than its data")
}

/// The number of the child that an index record leads to.
pub fn child_of(record: &[u8; INDEX_SIZE]) -> u32 {
    let child = record.last_chunk().expect("a record is longer than a number");
    u32::from_be_bytes(*child)
}

/// As many records of a size as fit before their offset words, of which there is one more.
const fn most_records(size: usize) -> usize {
    (NODE_SIZE - RECORDS_AT - 2) / (size + 2)
}

/// The offset words of records side by side, as a node ends in them, the first one's last.
const fn offset_words(size: usize) -> [u8; WORDS_SIZE] {
    let mut words = [0; WORDS_SIZE];
    let mut at = WORDS_SIZE;
    let mut start = RECORDS_AT as u16;
    while at > 0 {
        at -= 2;
        [words[at], words[at + 1]] = start.to_be_bytes();
        start += size as u16;
    }
    words
}
