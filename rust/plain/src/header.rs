//! Test 2: the header node and its fields.

use crate::node::{back_link, be16, be32, is_of, record_count, Node, HEADER_KIND, NODE_SIZE};

/// Where the root's number stands in the header.
pub const ROOT_AT: usize = 16;

const MOST_DEPTH: u16 = 8;
const KEY_LENGTH: u16 = 7;
const OFFSET_WORDS: [u8; 8] = [0x01, 0xF8, 0x00, 0xF8, 0x00, 0x78, 0x00, 0x0E];

/// The fields that later tests and lookups need.
pub struct Header {
    /// At most 8.
    pub depth: u8,
    pub root: u32,
    pub leaf_records: u32,
    pub first_leaf: u32,
    pub last_leaf: u32,
    pub free_nodes: u32,
}

impl Header {
    /// The header of an image of so many nodes, if it passes.
    pub fn read(node: &Node, node_count: usize) -> Option<Header> {
        let depth = be16(node, 14);
        let header = Header {
            depth: depth.min(MOST_DEPTH) as u8,
            root: be32(node, ROOT_AT),
            leaf_records: be32(node, 20),
            first_leaf: be32(node, 24),
            last_leaf: be32(node, 28),
            free_nodes: be32(node, 40),
        };
        let passes = is_header_node(node)
            && usize::from(be16(node, 32)) == NODE_SIZE
            && be16(node, 34) == KEY_LENGTH
            && be32(node, 36) as usize == node_count
            && depth <= MOST_DEPTH
            && (depth > 0 || header.names_no_tree());
        passes.then_some(header)
    }

    fn names_no_tree(&self) -> bool {
        [self.root, self.leaf_records, self.first_leaf, self.last_leaf] == [0; 4]
    }
}

/// The forward link is left out, as it belongs to the map chain.
fn is_header_node(node: &Node) -> bool {
    is_of(node, HEADER_KIND, 0)
        && back_link(node) == 0
        && record_count(node) == 3
        && node.ends_with(&OFFSET_WORDS)
}
