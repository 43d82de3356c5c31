//! Where the fields of every node stand.

pub const NODE_SIZE: usize = 512;
pub const MOST_NODES: usize = 65_536;

pub const FORWARD_LINK_AT: usize = 0;
pub const BACK_LINK_AT: usize = 4;
pub const RECORDS_AT: usize = 14;

pub const INDEX_KIND: u8 = 0x00;
pub const HEADER_KIND: u8 = 0x01;
pub const MAP_KIND: u8 = 0x02;
pub const LEAF_KIND: u8 = 0xFF;

pub type Node = [u8; NODE_SIZE];

/// The whole nodes of an image, and the bytes after the last of them.
pub fn whole_nodes(image: &[u8]) -> (&[Node], &[u8]) {
    image.as_chunks()
}

pub fn be16(node: &Node, at: usize) -> u16 {
    u16::from_be_bytes([node[at], node[at + 1]])
}

pub fn be32(node: &Node, at: usize) -> u32 {
    u32::from_be_bytes([node[at], node[at + 1], node[at + 2], node[at + 3]])
}

pub fn forward_link(node: &Node) -> u32 {
    be32(node, FORWARD_LINK_AT)
}

pub fn back_link(node: &Node) -> u32 {
    be32(node, BACK_LINK_AT)
}

pub fn record_count(node: &Node) -> usize {
    usize::from(be16(node, 10))
}

pub fn level(node: &Node) -> u8 {
    node[9]
}

/// Whether a node has this kind, this level and a reserved word of zero.
pub fn is_of(node: &Node, kind: u8, level: u8) -> bool {
    node[8] == kind && self::level(node) == level && be16(node, 12) == 0
}
