//! Tests 5 and 6: what the leaf and index nodes of every tree have in common.

use crate::layout::Layout;
use crate::node::{be32, kind, level, reserved, Node};
use crate::place::Place;
use crate::position::Position;
use crate::verdict::{require, Verdict, KEY_ORDER, NODE_FORM};
use std::ops::Range;

pub const INDEX_KIND: u8 = 0x00;
pub const LEAF_KIND: u8 = 0xFF;

/// Nodes of one kind in a tree, with keyed records.
pub trait Keyed: Sized {
    type Layout: Layout;
    /// The records of one node.
    type Records<'a>: Copy;

    const KIND: u8;

    /// The records of a node; no more than it can hold, whatever its count says.
    fn records<const N: usize>(node: &Node<N>) -> Self::Records<'_>;

    fn count(records: Self::Records<'_>) -> usize;

    fn key<'a>(records: Self::Records<'a>, record: usize) -> Key<'a, Self>;

    /// Where a record starts within its node.
    fn start(records: Self::Records<'_>, record: usize) -> usize;

    /// Where in the node that stands which the key leads to: data, or the number of a child.
    fn data(records: Self::Records<'_>, record: usize) -> Range<usize>;

    /// Whether the count is possible, and so many records with lawful keys stand side by side where
    /// the offset words say.
    fn has_lawful_records<const N: usize>(node: &Node<N>) -> bool;

    /// Tests 5 and 6 of a node that belongs in the given position.
    fn test<'a, const N: usize>(
        node: &'a Node<N>,
        number: u32,
        position: &Position<Key<'a, Self>>,
    ) -> Result<(), Verdict> {
        let right_level = usize::from(level(node)) == position.level;
        let right_form = right_level && Self::is_well_formed(node);
        require(right_form, NODE_FORM, Place::of_node(number))?;
        let records = Self::records(node);
        match Self::first_misplaced(records, position) {
            None => Ok(()),
            Some(record) => {
                let place = Place::in_node(number, Self::start(records, record));
                Err(Verdict::new(KEY_ORDER, place))
            }
        }
    }

    /// Test 5 without the level, which a salvaged node need not keep.
    fn is_well_formed<const N: usize>(node: &Node<N>) -> bool {
        kind(node) == Self::KIND && reserved(node) == 0 && Self::has_lawful_records(node)
    }

    /// Test 6: the first record whose key breaks any of the rules for keys.
    fn first_misplaced<'a>(
        records: Self::Records<'a>,
        position: &Position<Key<'a, Self>>,
    ) -> Option<usize> {
        let matches_pointer = position.pointer_key.is_none_or(|key| key == Self::key(records, 0));
        if matches_pointer {
            // Keys that ascend from that of the pointer are not below it.
            Self::first_out_of_order(records, position.bound)
        } else {
            // Only record 0 has to match, and no fault comes before one of record 0.
            Some(0)
        }
    }

    /// The first record whose key is not above the one before it or not below the bound.
    fn first_out_of_order<'a>(records: Self::Records<'a>, bound: Key<'a, Self>) -> Option<usize> {
        let ascending = Self::count_ascending(records);
        let is_within = |record: usize| Self::key(records, record) < bound;
        // The highest of ascending keys is the last, so the others need a look only if it is wrong.
        if is_within(ascending - 1) {
            (ascending < Self::count(records)).then_some(ascending)
        } else {
            (0..ascending).find(|&record| !is_within(record))
        }
    }

    /// How many of the records, of which there is one at least, have keys above the one before.
    fn count_ascending(records: Self::Records<'_>) -> usize {
        let mut before = Self::key(records, 0);
        let later = 1..Self::count(records);
        let mut first_not_above = later.clone().skip_while(|&record| {
            let key = Self::key(records, record);
            let is_above = before < key;
            before = key;
            is_above
        });
        first_not_above.next().unwrap_or(later.end)
    }
}

pub type Key<'a, K> = <<K as Keyed>::Layout as Layout>::Key<'a>;

/// The child that a record of an index node points to.
pub fn child<L: Layout, const N: usize>(node: &Node<N>, record: usize) -> u32 {
    be32(node, child_at::<L, N>(node, record))
}

/// Where the child's number of an index record stands within the node.
pub fn child_at<L: Layout, const N: usize>(node: &Node<N>, record: usize) -> usize {
    L::Index::data(L::Index::records(node), record).start
}
