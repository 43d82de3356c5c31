//! What a kind of tree fixes about its keys and nodes, whatever the node size.

use crate::record::Keyed;

/// A key that a node has, or that is asked for.
pub trait OrderedKey: Copy + Ord {
    /// Above every key, so it stands for "no bound above".
    const UNBOUNDED: Self;
}

impl OrderedKey for u64 {
    const UNBOUNDED: u64 = u64::MAX;
}

impl OrderedKey for u128 {
    const UNBOUNDED: u128 = u128::MAX;
}

/// What a caller asks for, as near as the keys of the tree come to it.
#[derive(Clone, Copy)]
pub struct Asked<Key> {
    /// The highest key of the tree's kind that is not above the asked one.
    pub nearest: Key,
    /// Whether that is the asked one; if not, no record can have it.
    pub is_exact: bool,
}

/// How the keys of a kind of tree are ordered, and what stands around them.
pub trait Layout: Sized {
    type Key<'a>: OrderedKey;
    type Leaf: Keyed<Layout = Self>;
    type Index: Keyed<Layout = Self>;

    /// What the header says of the length of keys.
    const KEY_LENGTH: u16;
    /// The bytes of a map node after its record.
    const AFTER_MAP_RECORD: usize;

    /// The record that has the asked key, among leaf records with lawful and ascending keys.
    fn find<'a>(records: LeafRecords<'a, Self>, asked: Self::Key<'a>) -> Option<usize>;
}

pub type LeafRecords<'a, L> = <<L as Layout>::Leaf as Keyed>::Records<'a>;
