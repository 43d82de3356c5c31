//! The keys and nodes of a catalog.

use super::key::{self, Key};
use super::leaf::Leaf;
use crate::layout::{Layout, LeafRecords};
use crate::record::{Keyed, INDEX_KIND};
use crate::side_by_side::{FixedKeys, SideBySide};

/// The keys of an index node have room for the longest name, whatever name they have.
const INDEX_KEY_LENGTH: u8 = 37;
const INDEX_KEY_SIZE: usize = 1 + INDEX_KEY_LENGTH as usize;
const INDEX_SIZE: usize = INDEX_KEY_SIZE + 4;

pub struct Catalog;

impl Layout for Catalog {
    type Key<'a> = Key<'a>;
    type Leaf = Leaf;
    type Index = SideBySide<Catalog, INDEX_KIND, INDEX_SIZE>;

    const KEY_LENGTH: u16 = INDEX_KEY_LENGTH as u16;
    const AFTER_MAP_RECORD: usize = 4;

    fn find<'a>(records: LeafRecords<'a, Catalog>, asked: Key<'a>) -> Option<usize> {
        (0..Leaf::count(records)).find(|&record| Leaf::key(records, record) == asked)
    }
}

impl FixedKeys for Catalog {
    const KEY_SIZE: usize = INDEX_KEY_SIZE;

    fn key<const SIZE: usize>(record: &[u8; SIZE]) -> Key<'_> {
        Key::read(record)
    }

    fn has_lawful_key<const SIZE: usize>(record: &[u8; SIZE]) -> bool {
        record[0] == INDEX_KEY_LENGTH && key::has_lawful_name(record)
    }
}
