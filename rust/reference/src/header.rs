//! What the header node says, how that is written, and test 2: whether it may say so.

use crate::layout::Layout;
use crate::node::{
    back_link, be16, be32, ends_in, kind, level, put16, put32, record_count, reserved, Node,
    HEADER_KIND, RECORDS_AT,
};
use std::ops::Range;

/// Where the root's number stands in the header node.
pub const ROOT_AT: usize = 16;

const MOST_DEPTH: usize = 8;
const USER_RECORD_AT: usize = 0x78;
const MAP_RECORD_AT: usize = 0xF8;

/// The fields of the header record.
pub struct Header {
    pub depth: usize,
    pub root: u32,
    pub leaf_records: u32,
    pub first_leaf: u32,
    pub last_leaf: u32,
    pub node_size: u16,
    pub key_length: u16,
    pub total_nodes: u32,
    pub free_nodes: u32,
}

impl Header {
    pub fn read<const N: usize>(node: &Node<N>) -> Header {
        Header {
            depth: usize::from(be16(node, 14)),
            root: be32(node, ROOT_AT),
            leaf_records: be32(node, 20),
            first_leaf: be32(node, 24),
            last_leaf: be32(node, 28),
            node_size: be16(node, 32),
            key_length: be16(node, 34),
            total_nodes: be32(node, 36),
            free_nodes: be32(node, 40),
        }
    }

    pub fn write<const N: usize>(&self, node: &mut Node<N>) {
        put16(node, 14, self.depth as u16);
        put32(node, ROOT_AT, self.root);
        put32(node, 20, self.leaf_records);
        put32(node, 24, self.first_leaf);
        put32(node, 28, self.last_leaf);
        put16(node, 32, self.node_size);
        put16(node, 34, self.key_length);
        put32(node, 36, self.total_nodes);
        put32(node, 40, self.free_nodes);
    }

    /// Whether the fields are possible in an image of `node_count` nodes.
    pub fn is_possible<L: Layout, const N: usize>(&self, node_count: usize) -> bool {
        usize::from(self.node_size) == N
            && self.key_length == L::KEY_LENGTH
            && self.total_nodes as usize == node_count
            && self.depth <= MOST_DEPTH
            && (self.depth > 0 || self.names_no_tree())
    }

    fn names_no_tree(&self) -> bool {
        self.root == 0 && self.leaf_records == 0 && self.first_leaf == 0 && self.last_leaf == 0
    }
}

/// Where the first map record stands in the header: up to the four offset words.
pub fn map_record<const N: usize>() -> Range<usize> {
    MAP_RECORD_AT..N - 8
}

/// The offset words of a header, the first record's last.
pub fn offset_words<const N: usize>() -> [u16; 4] {
    [map_record::<N>().end, MAP_RECORD_AT, USER_RECORD_AT, RECORDS_AT].map(|start| start as u16)
}

/// Whether the node around the header record is a header node; its forward link is the map's.
pub fn is_header_node<const N: usize>(node: &Node<N>) -> bool {
    back_link(node) == 0
        && kind(node) == HEADER_KIND
        && level(node) == 0
        && record_count(node) == 3
        && reserved(node) == 0
        && ends_in(node, offset_words::<N>())
}
