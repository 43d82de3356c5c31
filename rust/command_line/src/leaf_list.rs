//! The leaf records along the forward links of an image that has passed its check.

use crate::form::Form;
use std::iter;

/// A leaf record: its place, and its bytes up to the next one.
#[derive(Clone, Copy, Debug, PartialEq, Eq)]
pub struct LeafRecord<'a> {
    pub node: u32,
    pub offset: u32,
    pub bytes: &'a [u8],
}

/// Where the header has its depth, its leaf records, its first leaf and its free nodes.
const DEPTH_AT: usize = 14;
const LEAF_RECORDS_AT: usize = 20;
const FIRST_LEAF_AT: usize = 24;
const FREE_NODES_AT: usize = 40;

/// Where a node has its record count.
const RECORD_COUNT_AT: usize = 10;

/// What the header of a sound image says.
#[derive(Clone, Copy, Debug, PartialEq, Eq)]
pub struct Summary {
    pub nodes: u32,
    pub free_nodes: u32,
    pub depth: u32,
    pub leaf_records: u32,
}

/// Reads the header of a sound image.
pub fn summary(form: Form, image: &[u8]) -> Summary {
    Summary {
        nodes: image.len() as u32 / form.node_size(),
        free_nodes: long(image, FREE_NODES_AT),
        depth: word(image, DEPTH_AT).into(),
        leaf_records: long(image, LEAF_RECORDS_AT),
    }
}

/// Follows the leaves of a sound image, whose links and offset words the check has shown to be right.
pub fn leaf_list(form: Form, image: &[u8]) -> impl Iterator<Item = LeafRecord<'_>> {
    let size = form.node_size() as usize;
    let node = move |number: u32| &image[number as usize * size..][..size];
    let is_node = |&link: &u32| link != 0;
    let first = Some(long(image, FIRST_LEAF_AT)).filter(is_node);
    let leaves = iter::successors(first, move |&leaf| Some(long(node(leaf), 0)).filter(is_node));
    leaves.flat_map(move |leaf| records(leaf, node(leaf)))
}

fn records(number: u32, node: &[u8]) -> impl Iterator<Item = LeafRecord<'_>> {
    let start = |record: usize| usize::from(word(node, node.len() - 2 * (record + 1)));
    (0..word(node, RECORD_COUNT_AT).into()).map(move |record| {
        let bytes = &node[start(record)..start(record + 1)];
        LeafRecord { node: number, offset: start(record) as u32, bytes }
    })
}

pub fn word(bytes: &[u8], at: usize) -> u16 {
    u16::from_be_bytes([bytes[at], bytes[at + 1]])
}

pub fn long(bytes: &[u8], at: usize) -> u32 {
    u32::from_be_bytes([bytes[at], bytes[at + 1], bytes[at + 2], bytes[at + 3]])
}
