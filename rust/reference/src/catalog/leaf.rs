//! How the leaves of a catalog lay out records of different sizes.

use super::entry::data_size;
use super::key::{self, Key};
use super::layout::Catalog;
use crate::node::{be16, offset_word, record_count, Node, RECORDS_AT};
use crate::record::{Keyed, LEAF_KIND};
use std::ops::Range;

pub const MOST_RECORDS: usize = 8;

/// A key without a name, a pad and the data of a thread.
const LEAST_SIZE: usize = 8 + 46;

/// What the length byte of a key does not count: itself.
const LENGTH_BYTE: usize = 1;

/// Leaves of a catalog.
pub struct Leaf;

/// A leaf that has passed test 5, so that its offset words can be trusted.
#[derive(Clone, Copy)]
pub struct LeafNode<'a> {
    node: &'a [u8],
    count: usize,
}

impl Keyed for Leaf {
    type Layout = Catalog;
    type Records<'a> = LeafNode<'a>;

    const KIND: u8 = LEAF_KIND;

    fn records<const N: usize>(node: &Node<N>) -> LeafNode<'_> {
        LeafNode { node, count: record_count(node).min(MOST_RECORDS) }
    }

    fn count(leaf: LeafNode<'_>) -> usize {
        leaf.count
    }

    fn key<'a>(leaf: Self::Records<'a>, record: usize) -> Key<'a> {
        Key::read(&leaf.node[Self::start(leaf, record)..])
    }

    fn start(leaf: LeafNode<'_>, record: usize) -> usize {
        usize::from(be16(leaf.node, leaf.node.len() - 2 * (record + 1)))
    }

    fn data(leaf: LeafNode<'_>, record: usize) -> Range<usize> {
        let start = Self::start(leaf, record);
        start + data_at(&leaf.node[start..])..Self::start(leaf, record + 1)
    }

    fn has_lawful_records<const N: usize>(node: &Node<N>) -> bool {
        let count = record_count(node);
        if !(1..=MOST_RECORDS).contains(&count) || offset_word(node, 0) != RECORDS_AT {
            return false;
        }
        let mut start = RECORDS_AT;
        (1..=count).all(|next| {
            let end = record_end(node, start, count);
            // From the offset word, so that no record has to wait for the one before it.
            start = offset_word(node, next);
            end == Some(start)
        })
    }
}

/// Where in a leaf record its data start: after the key, on an even offset, as the record does.
pub fn data_at(record: &[u8]) -> usize {
    key::size(record).next_multiple_of(2)
}

/// The end of the record at `start`, if it has a lawful key and a lawful type and, in a node of so many
/// records, ends before their offset words.
pub fn record_end<const N: usize>(node: &Node<N>, start: usize, count: usize) -> Option<usize> {
    let record = node.get(start..N - 2 * (count + 1))?;
    if record.len() < LEAST_SIZE || !has_lawful_key(record) {
        return None;
    }
    let data_at = data_at(record);
    let size = data_at + data_size(record[data_at])?;
    (size <= record.len()).then_some(start + size)
}

fn has_lawful_key(record: &[u8]) -> bool {
    let size = key::size(record);
    key::has_lawful_name(record) && usize::from(record[0]) + LENGTH_BYTE == size
}
