//! The same images as on the paper's bench, in HFS Plus.

use crate::format::Format;
use crate::key::Key;
use crate::node::{put32, Record};
use crate::trees::{self, numbered_records, one_leaf, one_pair, one_record_leaves, two_levels};

/// An image of an empty tree: only a header, the map bit of node 0 and zeros.
pub fn empty_tree(node_size: usize, total: u32) -> Vec<u8> {
    trees::empty(Format::plus(node_size), total)
}

/// E1: one node of 512 bytes, an empty tree.
pub fn e1() -> Vec<u8> {
    empty_tree(512, 1)
}

/// E1 with another first map byte.
pub fn e1_with_map_byte(byte: u8) -> Vec<u8> {
    trees::with_map_byte(e1(), byte)
}

/// E1 that claims one free node.
pub fn e1_with_free_1() -> Vec<u8> {
    trees::with_free_1(e1())
}

/// L1: a header and one leaf with one record, in nodes of 512 bytes.
pub fn l1() -> Vec<u8> {
    l1_in(512)
}

/// L1 in nodes of any size.
pub fn l1_in(node_size: usize) -> Vec<u8> {
    let format = Format::plus(node_size);
    one_leaf(format, &[one_pair(format, Key::new(16, 0x00, 5), 100, 3)])
}

/// L1 whose leaf is linked back to itself.
pub fn l1_with_back_link_1() -> Vec<u8> {
    let mut image = l1();
    put32(&mut image, 512 + 4, 1);
    image
}

/// L1 with another pad in its key.
pub fn l1_with_pad(pad: u8) -> Vec<u8> {
    let mut image = l1();
    image[512 + 14 + 3] = pad;
    image
}

/// A header and one leaf with the given number of records.
pub fn leaf_with(node_size: usize, count: usize) -> Vec<u8> {
    let format = Format::plus(node_size);
    one_leaf(format, &numbered_records(format, 1, count))
}

/// A root over leaves of one record each.
pub fn index_with(node_size: usize, count: usize) -> Vec<u8> {
    let format = Format::plus(node_size);
    one_record_leaves(format, &numbered_records(format, 1, count))
}

/// Two levels in four nodes of 4,096 bytes: a root, node 1, over two leaves with 52 records each,
/// which is as many as fit: files 1 to 52 in node 2, 53 to 104 in node 3.
pub fn two_full_leaves() -> Vec<u8> {
    let format = Format::plus(4_096);
    let most = format.most_leaf_records();
    let records: Vec<Record> = numbered_records(format, 1, 2 * most);
    two_levels(format, &[&records[..most], &records[most..]])
}

/// Two nodes: the header is linked to a map node that is linked to itself.
pub fn map_node_linked_to_itself(node_size: usize) -> Vec<u8> {
    trees::map_node_linked_to_itself(Format::plus(node_size))
}
