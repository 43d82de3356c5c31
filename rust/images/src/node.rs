//! Writes single nodes; bytes that no field names, pads of keys among them, stay as they are.

pub use crate::format::{HEADER_MAP_AT, RECORDS_AT};

use crate::format::Format;
use crate::key::Key;
use crate::tree_key::TreeKey;

pub const MOST_NODES: usize = 65_536;

pub const INDEX_KIND: u8 = 0x00;
pub const HEADER_KIND: u8 = 0x01;
pub const MAP_KIND: u8 = 0x02;
pub const LEAF_KIND: u8 = 0xFF;

/// A leaf record.
#[derive(Clone, Debug, PartialEq, Eq)]
pub struct Record<K = Key> {
    pub key: K,
    pub data: Vec<u8>,
}

/// An index record.
#[derive(Clone, Copy, Debug, PartialEq, Eq)]
pub struct Pointer<K = Key> {
    pub key: K,
    pub child: u32,
}

/// The first 14 bytes of a node, without the reserved word.
#[derive(Clone, Copy)]
pub struct Descriptor {
    pub forward: u32,
    pub back: u32,
    pub level: u8,
}

/// The fields of the header that differ from image to image.
#[derive(Clone, Copy, Default)]
pub struct HeaderFields {
    pub forward: u32,
    pub depth: u16,
    pub root: u32,
    pub leaf_records: u32,
    pub first_leaf: u32,
    pub last_leaf: u32,
    pub total: u32,
    pub free: u32,
}

pub fn write_header(format: Format, node: &mut [u8], fields: &HeaderFields) {
    let descriptor = Descriptor { forward: fields.forward, back: 0, level: 0 };
    write_descriptor(node, descriptor, HEADER_KIND, 3);
    put16(node, 14, fields.depth);
    put32(node, 16, fields.root);
    put32(node, 20, fields.leaf_records);
    put32(node, 24, fields.first_leaf);
    put32(node, 28, fields.last_leaf);
    put16(node, 32, format.node_size as u16);
    put16(node, 34, format.key_length());
    put32(node, 36, fields.total);
    put32(node, 40, fields.free);
    write_offsets(node, &[RECORDS_AT, 0x78, HEADER_MAP_AT, format.header_map().end]);
}

pub fn write_map(format: Format, node: &mut [u8], forward: u32) {
    let descriptor = Descriptor { forward, back: 0, level: 0 };
    write_descriptor(node, descriptor, MAP_KIND, 1);
    write_offsets(node, &[RECORDS_AT, format.node_map().end]);
}

/// Writes a leaf; more records than fit are written as far as they do, the offsets over the last.
pub fn write_leaf<K: TreeKey>(
    format: Format,
    node: &mut [u8],
    descriptor: Descriptor,
    records: &[Record<K>],
) {
    write_descriptor(node, descriptor, LEAF_KIND, records.len() as u16);
    let starts = leaf_starts(format, records);
    for (record, &at) in records.iter().zip(&starts) {
        record.key.put_in_leaf(format, node, at);
        put_what_fits(node, at + record.key.size_in_leaf(format), &record.data);
    }
    write_offsets(node, &starts);
}

/// Writes an index node; more records than fit are written as far as they do, the offsets over the
/// last.
pub fn write_index<K: TreeKey>(
    format: Format,
    node: &mut [u8],
    descriptor: Descriptor,
    pointers: &[Pointer<K>],
) {
    write_descriptor(node, descriptor, INDEX_KIND, pointers.len() as u16);
    let starts = index_starts(format, pointers.len());
    for (pointer, &at) in pointers.iter().zip(&starts) {
        pointer.key.put_in_index(format, node, at);
        put_what_fits(node, at + format.key_size(), &pointer.child.to_be_bytes());
    }
    write_offsets(node, &starts);
}

/// Where the records of a leaf start, and after them the free space.
pub fn leaf_starts<K: TreeKey>(format: Format, records: &[Record<K>]) -> Vec<usize> {
    let size = |record: &Record<K>| record.key.size_in_leaf(format) + record.data.len();
    let mut starts = vec![RECORDS_AT];
    starts.extend(records.iter().scan(RECORDS_AT, |at, record| {
        *at += size(record);
        Some(*at)
    }));
    starts
}

/// Where so many records of an index node start, and after them the free space.
pub fn index_starts(format: Format, count: usize) -> Vec<usize> {
    (0..=count).map(|record| RECORDS_AT + record * format.index_record_size()).collect()
}

/// Whether the records of a leaf end before their offset words.
pub fn fit_in_leaf<K: TreeKey>(format: Format, records: &[Record<K>]) -> bool {
    let starts = leaf_starts(format, records);
    starts[records.len()] + 2 * starts.len() <= format.node_size
}

/// Copies a node to its place in the image.
pub fn put_node(image: &mut [u8], number: u32, node: &[u8]) {
    let at = number as usize * node.len();
    image[at..at + node.len()].copy_from_slice(node);
}

pub fn put16(bytes: &mut [u8], at: usize, value: u16) {
    bytes[at..at + 2].copy_from_slice(&value.to_be_bytes());
}

pub fn put32(bytes: &mut [u8], at: usize, value: u32) {
    bytes[at..at + 4].copy_from_slice(&value.to_be_bytes());
}

/// Where the byte with a node's map bit stands in the image.
pub fn map_byte_at(format: Format, map_chain: &[u32], bit: usize) -> usize {
    if bit < format.header_bits() {
        return HEADER_MAP_AT + bit / 8;
    }
    let beyond = bit - format.header_bits();
    let number = map_chain[beyond / format.map_node_bits()] as usize;
    number * format.node_size + RECORDS_AT + beyond % format.map_node_bits() / 8
}

/// Writes bytes as far as the node has room for them.
pub fn put_what_fits(node: &mut [u8], at: usize, bytes: &[u8]) {
    for (place, byte) in node.iter_mut().skip(at).zip(bytes) {
        *place = *byte;
    }
}

fn write_descriptor(node: &mut [u8], descriptor: Descriptor, kind: u8, count: u16) {
    put32(node, 0, descriptor.forward);
    put32(node, 4, descriptor.back);
    node[8] = kind;
    node[9] = descriptor.level;
    put16(node, 10, count);
    put16(node, 12, 0);
}

fn write_offsets(node: &mut [u8], offsets: &[usize]) {
    for (index, &offset) in offsets.iter().enumerate() {
        put16(node, node.len() - 2 - 2 * index, offset as u16);
    }
}
