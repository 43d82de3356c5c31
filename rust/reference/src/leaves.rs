//! The leaf list: every leaf record in the order of the forward links.

use crate::header::Header;
use crate::hfs::{key, Hfs, LEAF_DATA_SIZE, LEAF_SIZE, NODE_SIZE};
use crate::key::{Key, KEY_SIZE};
use crate::layout::Layout;
use crate::node::{forward_link, whole_nodes, Node};
use crate::record::Keyed;
use std::iter;

type Leaf = <Hfs as Layout>::Leaf;

/// One record of the leaf list.
#[derive(Clone, Copy, Debug, PartialEq, Eq)]
pub struct LeafRecord {
    pub node: u32,
    pub record: u32,
    /// The offset in the node at which the record starts.
    pub start: u32,
    pub key: Key,
    pub data: [u8; LEAF_DATA_SIZE],
}

/// Reads the leaf list of a sound image.
///
/// Of an unsound image it reads what the links lead to: it ends at a link out of range or once it
/// has read as many nodes as there are, and takes no more records than a leaf can hold.
pub fn leaf_records(image: &[u8]) -> Vec<LeafRecord> {
    let nodes = whole_nodes::<NODE_SIZE>(image);
    let mut records = Vec::new();
    for number in leaf_numbers(nodes) {
        let in_node = Leaf::records(&nodes[number as usize]);
        records.extend((0..in_node.len()).map(|record| read_record(number, in_node, record)));
    }
    records
}

/// The leaves in the order of the forward links, up to a link that is out of range, and no more than
/// there are nodes.
pub fn leaf_numbers<const N: usize>(nodes: &[Node<N>]) -> impl Iterator<Item = u32> + use<'_, N> {
    let in_range = |&number: &u32| number != 0 && (number as usize) < nodes.len();
    let first = nodes.first().map(|node| Header::read(node).first_leaf).filter(in_range);
    let next = move |&number: &u32| Some(forward_link(&nodes[number as usize])).filter(in_range);
    iter::successors(first, next).take(nodes.len())
}

fn read_record(node: u32, records: &[[u8; LEAF_SIZE]], record: usize) -> LeafRecord {
    let bytes = &records[record];
    let mut data = [0; LEAF_DATA_SIZE];
    data.copy_from_slice(&bytes[KEY_SIZE..]);
    let start = Leaf::start(records, record) as u32;
    LeafRecord { node, record: record as u32, start, key: key(bytes), data }
}
