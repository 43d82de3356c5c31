//! The leaf list of a catalog: every leaf record in the order of the forward links.

use super::key::Key;
use super::leaf::{data_at, record_end, MOST_RECORDS};
use super::NODE_SIZE;
use crate::leaves::leaf_numbers;
use crate::node::{record_count, whole_nodes, Node, RECORDS_AT};

/// One record of the leaf list; its name and its data stand in the image.
#[derive(Clone, Copy, Debug, PartialEq, Eq)]
pub struct LeafRecord<'a> {
    pub node: u32,
    pub record: u32,
    /// The offset in the node at which the record starts.
    pub start: u32,
    pub key: Key<'a>,
    pub data: &'a [u8],
}

/// Reads the leaf list of a sound image.
///
/// Of an unsound image it reads what the links lead to: it ends at a link out of range or once it
/// has read as many nodes as there are, and takes the records of a node as far as they can be read.
pub fn leaf_records(image: &[u8]) -> Vec<LeafRecord<'_>> {
    let nodes = whole_nodes::<NODE_SIZE>(image);
    let numbers = leaf_numbers(nodes);
    numbers.flat_map(|number| records_of(number, &nodes[number as usize])).collect()
}

fn records_of(number: u32, node: &Node<NODE_SIZE>) -> Vec<LeafRecord<'_>> {
    let count = record_count(node).min(MOST_RECORDS);
    let mut records = Vec::new();
    let mut start = RECORDS_AT;
    while records.len() < count {
        let Some(end) = record_end(node, start, count) else {
            break;
        };
        let bytes = &node[start..end];
        records.push(LeafRecord {
            node: number,
            record: records.len() as u32,
            start: start as u32,
            key: Key::read(bytes),
            data: &bytes[data_at(bytes)..],
        });
        start = end;
    }
    records
}
