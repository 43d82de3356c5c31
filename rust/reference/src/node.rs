//! Where the fields common to all nodes stand.

use std::ops::Range;

pub const MOST_NODES: usize = 65_536;
pub const FORWARD_LINK_AT: usize = 0;
pub const BACK_LINK_AT: usize = 4;
pub const RECORDS_AT: usize = 14;

pub const HEADER_KIND: u8 = 0x01;
pub const MAP_KIND: u8 = 0x02;

pub type Node<const N: usize> = [u8; N];

/// The whole nodes of an image; a broken last node is left out.
pub fn whole_nodes<const N: usize>(image: &[u8]) -> &[Node<N>] {
    image.as_chunks().0
}

pub fn be16(bytes: &[u8], at: usize) -> u16 {
    u16::from_be_bytes([bytes[at], bytes[at + 1]])
}

pub fn be32(bytes: &[u8], at: usize) -> u32 {
    u32::from_be_bytes([bytes[at], bytes[at + 1], bytes[at + 2], bytes[at + 3]])
}

pub fn put16(bytes: &mut [u8], at: usize, value: u16) {
    bytes[at..at + 2].copy_from_slice(&value.to_be_bytes());
}

pub fn put32(bytes: &mut [u8], at: usize, value: u32) {
    bytes[at..at + 4].copy_from_slice(&value.to_be_bytes());
}

pub fn forward_link<const N: usize>(node: &Node<N>) -> u32 {
    be32(node, FORWARD_LINK_AT)
}

pub fn back_link<const N: usize>(node: &Node<N>) -> u32 {
    be32(node, BACK_LINK_AT)
}

pub fn kind<const N: usize>(node: &Node<N>) -> u8 {
    node[8]
}

pub fn level<const N: usize>(node: &Node<N>) -> u8 {
    node[9]
}

pub fn record_count<const N: usize>(node: &Node<N>) -> usize {
    usize::from(be16(node, 10))
}

pub fn reserved<const N: usize>(node: &Node<N>) -> u16 {
    be16(node, 12)
}

/// Where a record starts, or after the last one the free space, by the words at the node's end.
pub fn offset_word<const N: usize>(node: &Node<N>, record: usize) -> usize {
    usize::from(be16(node, N - 2 * (record + 1)))
}

/// Whether the node ends in these offset words, the first record's last.
pub fn ends_in<const N: usize, const WORDS: usize>(node: &Node<N>, words: [u16; WORDS]) -> bool {
    let (_, ends) = node.as_rchunks::<2>();
    ends[ends.len() - WORDS..].iter().zip(words).all(|(end, word)| u16::from_be_bytes(*end) == word)
}

/// Turns a range within a node into the range of the same bytes within the image.
pub fn range_in_image<const N: usize>(number: usize, within: Range<usize>) -> Range<usize> {
    let base = number * N;
    base + within.start..base + within.end
}
