//! What free nodes may hold: remains of nodes that were once in use.

use crate::format::Format;
use crate::node::{fit_in_leaf, write_index, write_leaf, write_map, Descriptor, Pointer, Record};
use crate::rng::Rng;
use crate::tree_key::TreeKey;

/// The remains of some node; its records may have keys of the tree, with other data.
pub fn old_node<K: TreeKey>(rng: &mut Rng, format: Format, records: &[Record<K>]) -> Vec<u8> {
    let mut node = vec![0; format.node_size];
    match rng.index(6) {
        0 => {}
        1 => rng.fill(&mut node),
        2 => write_map(format, &mut node, 0),
        3 => old_index(rng, format, &mut node, records),
        4 => broken_leaf(rng, format, &mut node, records),
        _ => old_leaf(rng, format, &mut node, records),
    }
    node
}

fn old_leaf<K: TreeKey>(rng: &mut Rng, format: Format, node: &mut [u8], records: &[Record<K>]) {
    fill_unjudged(rng, format, node);
    let keys = old_keys(rng, format, records, format.most_leaf_records());
    let mut old: Vec<Record<K>> =
        keys.into_iter().map(|key| Record { key, data: K::any_data(rng, format) }).collect();
    while !fit_in_leaf(format, &old) {
        old.pop();
    }
    let descriptor = old_descriptor(rng);
    write_leaf(format, node, descriptor, &old);
}

/// An old leaf with one byte changed, so that it may no longer count for a salvage.
fn broken_leaf<K: TreeKey>(rng: &mut Rng, format: Format, node: &mut [u8], records: &[Record<K>]) {
    old_leaf(rng, format, node, records);
    node[rng.index(format.node_size)] = rng.next_u64() as u8;
}

fn old_index<K: TreeKey>(rng: &mut Rng, format: Format, node: &mut [u8], records: &[Record<K>]) {
    fill_unjudged(rng, format, node);
    let keys = old_keys(rng, format, records, format.most_index_records());
    let old: Vec<Pointer<K>> = keys
        .into_iter()
        .map(|key| {
            let child = rng.next_u64() as u32;
            Pointer { key, child }
        })
        .collect();
    let descriptor = old_descriptor(rng);
    write_index(format, node, descriptor, &old);
}

/// Noise for the records to be written over, which leaves the bytes of keys that no rule judges.
fn fill_unjudged(rng: &mut Rng, format: Format, node: &mut [u8]) {
    if format.has_unjudged_key_bytes() {
        rng.fill(node);
    }
}

fn old_descriptor(rng: &mut Rng) -> Descriptor {
    Descriptor {
        forward: rng.next_u64() as u32,
        back: rng.next_u64() as u32,
        level: rng.next_u64() as u8,
    }
}

/// Ascending keys, about half of them from the tree.
fn old_keys<K: TreeKey>(
    rng: &mut Rng,
    format: Format,
    records: &[Record<K>],
    most: usize,
) -> Vec<K> {
    let count = rng.between(1, most as u64);
    let mut keys: Vec<K> = (0..count)
        .map(|_| {
            if records.is_empty() || rng.flip() {
                K::any(rng, format)
            } else {
                records[rng.index(records.len())].key.clone()
            }
        })
        .collect();
    keys.sort_unstable();
    keys.dedup();
    keys
}
