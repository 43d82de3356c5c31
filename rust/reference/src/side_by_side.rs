//! Records of one size, which lie side by side from the start of their node.

use crate::layout::Layout;
use crate::node::{offset_word, record_count, Node, RECORDS_AT};
use crate::record::{Key, Keyed};
use std::marker::PhantomData;
use std::ops::Range;

/// A tree some of whose keys take the same number of bytes each.
pub trait FixedKeys: Layout {
    /// The bytes of a key with its length field.
    const KEY_SIZE: usize;

    fn key<const SIZE: usize>(record: &[u8; SIZE]) -> Self::Key<'_>;

    /// Whether its length, and what else is fixed about a key, is as it must be.
    fn has_lawful_key<const SIZE: usize>(record: &[u8; SIZE]) -> bool;
}

/// Nodes with records of `SIZE` bytes, each with a key first.
pub struct SideBySide<L, const KIND: u8, const SIZE: usize>(PhantomData<L>);

impl<L: FixedKeys, const KIND: u8, const SIZE: usize> Keyed for SideBySide<L, KIND, SIZE> {
    type Layout = L;
    type Records<'a> = &'a [[u8; SIZE]];

    const KIND: u8 = KIND;

    fn records<const N: usize>(node: &Node<N>) -> &[[u8; SIZE]] {
        let most = const { most_records(N, SIZE) };
        &node[RECORDS_AT..].as_chunks().0[..record_count(node).min(most)]
    }

    fn count(records: &[[u8; SIZE]]) -> usize {
        records.len()
    }

    fn key<'a>(records: Self::Records<'a>, record: usize) -> Key<'a, Self> {
        L::key(&records[record])
    }

    fn start(_: &[[u8; SIZE]], record: usize) -> usize {
        start(record, SIZE)
    }

    fn data(_: &[[u8; SIZE]], record: usize) -> Range<usize> {
        start(record, SIZE) + L::KEY_SIZE..start(record + 1, SIZE)
    }

    fn has_lawful_records<const N: usize>(node: &Node<N>) -> bool {
        let most = const { most_records(N, SIZE) };
        let count = record_count(node);
        (1..=most).contains(&count)
            && (0..=count).all(|record| offset_word(node, record) == start(record, SIZE))
            && Self::records(node).iter().all(L::has_lawful_key)
    }
}

fn start(record: usize, size: usize) -> usize {
    RECORDS_AT + record * size
}

/// As many records as fit in a node before their offset words, of which there is one more.
const fn most_records(node_size: usize, record_size: usize) -> usize {
    let mut count = 0;
    while RECORDS_AT + (count + 1) * record_size + 2 * (count + 2) <= node_size {
        count += 1;
    }
    count
}
