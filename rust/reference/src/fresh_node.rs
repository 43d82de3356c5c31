//! Writes the nodes of a fresh HFS image, every byte of each, whatever it held before.

use crate::header::{self, Header};
use crate::hfs::{Hfs, INDEX_SIZE, LEAF_SIZE, NODE_SIZE};
use crate::key::KEY_SIZE;
use crate::map;
use crate::node::{
    put16, put32, Node, BACK_LINK_AT, FORWARD_LINK_AT, HEADER_KIND, MAP_KIND, RECORDS_AT,
};
use crate::record::{INDEX_KIND, LEAF_KIND};

/// The records of a full leaf and of a full index node.
pub const LEAF_RECORDS: usize = 22;
pub const INDEX_RECORDS: usize = 35;

const LEAF_LEVEL: u8 = 1;

pub type FreshNode = Node<NODE_SIZE>;
pub type LeafBytes = [u8; LEAF_SIZE];

/// The offset words of full nodes; those of a node with fewer records are the last of them.
const LEAF_OFFSETS: [[u8; 2]; LEAF_RECORDS + 1] = record_offsets(LEAF_SIZE);
const INDEX_OFFSETS: [[u8; 2]; INDEX_RECORDS + 1] = record_offsets(INDEX_SIZE);

/// The nodes before and after a node, 0 for none.
#[derive(Clone, Copy)]
pub struct Links {
    pub forward: u32,
    pub back: u32,
}

/// Writes the header; its map record has bits for the first nodes, of which so many are in use.
pub fn write_header(node: &mut FreshNode, first_map_node: u32, header: &Header, used: usize) {
    node.fill(0);
    let links = Links { forward: first_map_node, back: 0 };
    write_descriptor(node, links, HEADER_KIND, 0, 3);
    header.write(node);
    set_first_bits(&mut node[header::map_record::<NODE_SIZE>()], used);
    write_end(node, &header::offset_words::<NODE_SIZE>().map(u16::to_be_bytes));
}

/// Writes a map node; of the nodes that its record has bits for the first so many are in use.
pub fn write_map_node(node: &mut FreshNode, next: u32, used: usize) {
    write_descriptor(node, Links { forward: next, back: 0 }, MAP_KIND, 0, 1);
    set_first_bits(&mut node[map::map_record::<Hfs, NODE_SIZE>()], used);
    write_end(node, &map::offset_words::<Hfs, NODE_SIZE>().map(u16::to_be_bytes));
}

/// Writes a leaf with its records, of which there are 1 to 22.
///
/// Inlined, so that where full leaves are written their length is a constant.
#[inline(always)]
pub fn write_leaf(node: &mut FreshNode, links: Links, records: &[LeafBytes]) {
    let bytes = records.as_flattened();
    write_descriptor(node, links, LEAF_KIND, LEAF_LEVEL, records.len());
    node[RECORDS_AT..RECORDS_AT + bytes.len()].copy_from_slice(bytes);
    write_rest(node, RECORDS_AT + bytes.len(), &LEAF_OFFSETS[LEAF_RECORDS - records.len()..]);
}

/// Writes an index node over its children, of which there are 1 to 35 from `first_child` on.
pub fn write_index(
    node: &mut FreshNode,
    links: Links,
    level: u8,
    children: &[FreshNode],
    first_child: u32,
) {
    write_descriptor(node, links, INDEX_KIND, level, children.len());
    let (records, _) = node[RECORDS_AT..].as_chunks_mut::<INDEX_SIZE>();
    for ((record, child), number) in records.iter_mut().zip(children).zip(first_child..) {
        record[..KEY_SIZE].copy_from_slice(&child[RECORDS_AT..RECORDS_AT + KEY_SIZE]);
        put32(record, KEY_SIZE, number);
    }
    let records_end = RECORDS_AT + children.len() * INDEX_SIZE;
    write_rest(node, records_end, &INDEX_OFFSETS[INDEX_RECORDS - children.len()..]);
}

fn write_descriptor(node: &mut FreshNode, links: Links, kind: u8, level: u8, record_count: usize) {
    put32(node, FORWARD_LINK_AT, links.forward);
    put32(node, BACK_LINK_AT, links.back);
    node[8] = kind;
    node[9] = level;
    put16(node, 10, record_count as u16);
    put16(node, 12, 0);
}

/// Sets as many bits from the top of the first byte on, or all that there are, and clears the others.
fn set_first_bits(map_record: &mut [u8], count: usize) {
    let whole_bytes = (count / 8).min(map_record.len());
    let (set, others) = map_record.split_at_mut(whole_bytes);
    set.fill(0xFF);
    others.fill(0);
    if let Some(byte) = others.first_mut() {
        *byte = !(0xFF >> (count % 8));
    }
}

/// Writes the free bytes and the offset words, the first record's last.
fn write_rest(node: &mut FreshNode, free_at: usize, offsets: &[[u8; 2]]) {
    node[free_at..NODE_SIZE - 2 * offsets.len()].fill(0);
    write_end(node, offsets);
}

fn write_end(node: &mut FreshNode, offsets: &[[u8; 2]]) {
    node[NODE_SIZE - 2 * offsets.len()..].copy_from_slice(offsets.as_flattened());
}

/// Where records of this size start and the free space after them, from the last word to the first.
const fn record_offsets<const WORDS: usize>(record_size: usize) -> [[u8; 2]; WORDS] {
    let mut offsets = [[0; 2]; WORDS];
    let mut record = 0;
    while record < WORDS {
        let start = RECORDS_AT + record * record_size;
        offsets[WORDS - 1 - record] = (start as u16).to_be_bytes();
        record += 1;
    }
    offsets
}
