//! The images on the paper's bench, byte for byte as it describes them.

use crate::format::Format;
use crate::key::Key;
use crate::node::*;
use crate::trees::{self, numbered_records, one_leaf, one_pair, one_record_leaves, two_levels};

const FORMAT: Format = Format::HFS;
const NODE_SIZE: usize = FORMAT.node_size;

/// An image of an empty tree: only a header, the map bit of node 0 and zeros.
pub fn empty_tree(total: u32) -> Vec<u8> {
    trees::empty(FORMAT, total)
}

/// E1: one node, an empty tree.
pub fn e1() -> Vec<u8> {
    empty_tree(1)
}

/// E1 with another first map byte.
pub fn e1_with_map_byte(byte: u8) -> Vec<u8> {
    trees::with_map_byte(e1(), byte)
}

/// E1 that claims one free node.
pub fn e1_with_free_1() -> Vec<u8> {
    trees::with_free_1(e1())
}

/// L1: a header and one leaf with one record.
pub fn l1() -> Vec<u8> {
    one_leaf(FORMAT, &[one_pair(FORMAT, Key::new(16, 0x00, 5), 100, 3)])
}

/// L1 whose leaf is linked back to itself.
pub fn l1_with_back_link_1() -> Vec<u8> {
    let mut image = l1();
    put32(&mut image, NODE_SIZE + 4, 1);
    image
}

/// A header and one leaf with the given number of records; sound up to 22.
pub fn leaf_with(count: usize) -> Vec<u8> {
    one_leaf(FORMAT, &numbered_records(FORMAT, 1, count))
}

/// A root over leaves of one record each; sound up to 35.
pub fn index_with(count: usize) -> Vec<u8> {
    one_record_leaves(FORMAT, &numbered_records(FORMAT, 1, count))
}

/// Two levels in four nodes: a root, node 1, over the leaves 2 and 3 with one record and two.
pub fn two_leaves() -> Vec<u8> {
    let records = [
        one_pair(FORMAT, Key::new(16, 0x00, 5), 100, 3),
        one_pair(FORMAT, Key::new(16, 0xFF, 0), 103, 2),
        one_pair(FORMAT, Key::new(17, 0x00, 0), 105, 1),
    ];
    two_levels(FORMAT, &[&records[..1], &records[1..]])
}

/// The same tree with other level bytes in the root and in both leaves.
pub fn two_leaves_with_levels(root: u8, leaves: u8) -> Vec<u8> {
    let mut image = two_leaves();
    for (number, level) in [(1, root), (2, leaves), (3, leaves)] {
        image[number * NODE_SIZE + 9] = level;
    }
    image
}

/// The same tree with another key in one record of the root.
pub fn two_leaves_with_pointer(record: usize, key: Key) -> Vec<u8> {
    let mut image = two_leaves();
    let at = NODE_SIZE + RECORDS_AT + record * FORMAT.index_record_size();
    image[at..at + 8].copy_from_slice(&key.bytes());
    image
}

/// Two nodes: the header is linked to a map node that is linked to itself.
pub fn map_node_linked_to_itself() -> Vec<u8> {
    trees::map_node_linked_to_itself(FORMAT)
}
