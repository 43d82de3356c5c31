//! Small trees in any format, with every byte that is not named zero.

use crate::format::Format;
use crate::key::Key;
use crate::node::*;
use crate::tree_key::TreeKey;
use std::slice;

/// An image of an empty tree: only a header, the map bit of node 0 and zeros.
pub fn empty(format: Format, total: u32) -> Vec<u8> {
    let fields = HeaderFields { total, free: total - 1, ..HeaderFields::default() };
    let mut image = vec![0; total as usize * format.node_size];
    put_header(format, &mut image, &fields);
    image[HEADER_MAP_AT] = 0x80;
    image
}

/// The image with another first map byte.
pub fn with_map_byte(mut image: Vec<u8>, byte: u8) -> Vec<u8> {
    image[HEADER_MAP_AT] = byte;
    image
}

/// The image that claims one free node.
pub fn with_free_1(mut image: Vec<u8>) -> Vec<u8> {
    put32(&mut image, 40, 1);
    image
}

/// A header and one leaf, node 1, with the given records.
pub fn one_leaf<K: TreeKey>(format: Format, records: &[Record<K>]) -> Vec<u8> {
    let fields = HeaderFields {
        depth: 1,
        root: 1,
        leaf_records: records.len() as u32,
        first_leaf: 1,
        last_leaf: 1,
        total: 2,
        ..HeaderFields::default()
    };
    let mut image = vec![0; 2 * format.node_size];
    put_header(format, &mut image, &fields);
    put_bits(&mut image, 2);
    let mut node = vec![0; format.node_size];
    write_leaf(format, &mut node, Descriptor { forward: 0, back: 0, level: 1 }, records);
    put_node(&mut image, 1, &node);
    image
}

/// A root, node 1, over leaves from node 2 on, each with the records of one group.
pub fn two_levels<K: TreeKey>(format: Format, groups: &[&[Record<K>]]) -> Vec<u8> {
    let total = groups.len() as u32 + 2;
    let fields = HeaderFields {
        depth: 2,
        root: 1,
        leaf_records: groups.iter().map(|group| group.len() as u32).sum(),
        first_leaf: 2,
        last_leaf: total - 1,
        total,
        ..HeaderFields::default()
    };
    let mut image = vec![0; total as usize * format.node_size];
    put_header(format, &mut image, &fields);
    put_bits(&mut image, total);
    let mut pointers = Vec::new();
    for (child, records) in (2..total).zip(groups) {
        pointers.push(Pointer { key: records[0].key.clone(), child });
        let forward = if child + 1 < total { child + 1 } else { 0 };
        let back = if child > 2 { child - 1 } else { 0 };
        let mut node = vec![0; format.node_size];
        write_leaf(format, &mut node, Descriptor { forward, back, level: 1 }, records);
        put_node(&mut image, child, &node);
    }
    let mut root = vec![0; format.node_size];
    write_index(format, &mut root, Descriptor { forward: 0, back: 0, level: 2 }, &pointers);
    put_node(&mut image, 1, &root);
    image
}

/// A root over leaves of one record each.
pub fn one_record_leaves<K: TreeKey>(format: Format, records: &[Record<K>]) -> Vec<u8> {
    let groups: Vec<&[Record<K>]> = records.iter().map(slice::from_ref).collect();
    two_levels(format, &groups)
}

/// Two nodes: the header is linked to a map node that is linked to itself.
pub fn map_node_linked_to_itself(format: Format) -> Vec<u8> {
    let fields = HeaderFields { forward: 1, total: 2, ..HeaderFields::default() };
    let mut image = vec![0; 2 * format.node_size];
    put_header(format, &mut image, &fields);
    put_bits(&mut image, 2);
    let mut node = vec![0; format.node_size];
    write_map(format, &mut node, 1);
    put_node(&mut image, 1, &node);
    image
}

/// A record whose pairs after the first are zero; HFS has 16-bit numbers, HFS Plus 32-bit ones.
pub fn one_pair(format: Format, key: Key, first_block: u16, block_count: u16) -> Record {
    let mut data = vec![0; format.data_size()];
    for (number, value) in [first_block, block_count].into_iter().enumerate() {
        match format.by_edition(2, 4) {
            2 => put16(&mut data, 2 * number, value),
            _ => put32(&mut data, 4 * number, value.into()),
        }
    }
    Record { key, data }
}

/// Records of the data forks of the files from `first` on, from block 0, with data of zeros.
pub fn numbered_records(format: Format, first: u32, count: usize) -> Vec<Record> {
    (first..)
        .take(count)
        .map(|file| Record { key: Key::new(file, 0x00, 0), data: vec![0; format.data_size()] })
        .collect()
}

fn put_header(format: Format, image: &mut [u8], fields: &HeaderFields) {
    write_header(format, &mut image[..format.node_size], fields);
}

fn put_bits(image: &mut [u8], used: u32) {
    for bit in 0..used as usize {
        image[HEADER_MAP_AT + bit / 8] |= 0x80 >> (bit % 8);
    }
}
