//! What a tree, an edition and a node size fix about an image.

use std::ops::Range;

pub const RECORDS_AT: usize = 14;
pub const HEADER_MAP_AT: usize = 0xF8;

#[derive(Clone, Copy, Debug, PartialEq, Eq)]
pub enum Edition {
    Hfs,
    HfsPlus,
}

#[derive(Clone, Copy, Debug, PartialEq, Eq)]
pub enum Tree {
    Extents,
    Catalog,
}

/// A tree in an edition, and a node size that it has.
#[derive(Clone, Copy, Debug, PartialEq, Eq)]
pub struct Format {
    pub edition: Edition,
    pub tree: Tree,
    pub node_size: usize,
}

/// The node sizes of HFS Plus.
pub const PLUS_NODE_SIZES: [usize; 7] = [512, 1_024, 2_048, 4_096, 8_192, 16_384, 32_768];

impl Format {
    pub const HFS: Format = Format::extents(Edition::Hfs, 512);

    /// The catalog tree, which is of HFS.
    pub const CATALOG: Format = Format { tree: Tree::Catalog, ..Format::HFS };

    pub const fn plus(node_size: usize) -> Format {
        Format::extents(Edition::HfsPlus, node_size)
    }

    const fn extents(edition: Edition, node_size: usize) -> Format {
        Format { edition, tree: Tree::Extents, node_size }
    }

    /// The extents trees: HFS, then HFS Plus at each of its node sizes.
    pub fn all() -> impl Iterator<Item = Format> {
        [Format::HFS].into_iter().chain(PLUS_NODE_SIZES.map(Format::plus))
    }

    /// The number that a caller of a reader says the edition with.
    pub fn edition_number(self) -> u32 {
        self.by_edition(0, 1)
    }

    /// The key with its length, as an index record has it.
    pub fn key_size(self) -> usize {
        self.by_tree(self.by_edition(8, 12), 38)
    }

    /// What the length field of an index key says, and the header of all keys.
    pub fn key_length(self) -> u16 {
        self.by_tree(self.by_edition(7, 10), 37)
    }

    /// Where the fork stands in a key of an extents tree.
    pub fn fork_at(self) -> usize {
        self.by_edition(1, 2)
    }

    /// Where the pad stands in a key of an extents tree, if it has one.
    pub fn pad_at(self) -> Option<usize> {
        self.by_edition(None, Some(3))
    }

    /// Whether keys have bytes that no rule judges.
    pub fn has_unjudged_key_bytes(self) -> bool {
        self.by_tree(self.pad_at().is_some(), true)
    }

    /// The bits of a start block.
    pub fn start_bits(self) -> u32 {
        self.by_edition(16, 32)
    }

    /// The data of a record of an extents tree.
    pub fn data_size(self) -> usize {
        self.by_edition(12, 64)
    }

    /// The least that a leaf record takes; in an extents tree they all take this.
    pub fn leaf_record_size(self) -> usize {
        // In a catalog: seven bytes of key, a pad and a thread.
        self.by_tree(self.key_size() + self.data_size(), 7 + 1 + 46)
    }

    pub fn index_record_size(self) -> usize {
        self.key_size() + 4
    }

    pub fn most_leaf_records(self) -> usize {
        self.most_records(self.leaf_record_size())
    }

    pub fn most_index_records(self) -> usize {
        self.most_records(self.index_record_size())
    }

    /// Where the map record stands in the header.
    pub fn header_map(self) -> Range<usize> {
        HEADER_MAP_AT..self.node_size - 8
    }

    /// Where the map record stands in a map node.
    pub fn node_map(self) -> Range<usize> {
        RECORDS_AT..self.node_size - self.by_edition(4, 6)
    }

    pub fn header_bits(self) -> usize {
        8 * self.header_map().len()
    }

    pub fn map_node_bits(self) -> usize {
        8 * self.node_map().len()
    }

    pub fn by_edition<T>(self, hfs: T, hfs_plus: T) -> T {
        match self.edition {
            Edition::Hfs => hfs,
            Edition::HfsPlus => hfs_plus,
        }
    }

    pub fn by_tree<T>(self, extents: T, catalog: T) -> T {
        match self.tree {
            Tree::Extents => extents,
            Tree::Catalog => catalog,
        }
    }

    /// Each record takes its size and an offset word; 14 bytes and one word more are taken anyway.
    fn most_records(self, record_size: usize) -> usize {
        (self.node_size - RECORDS_AT - 2) / (record_size + 2)
    }
}
