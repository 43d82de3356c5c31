//! What a catalog key is and how catalog keys are ordered.

use super::weights::WEIGHTS;
use crate::layout::OrderedKey;
use crate::node::be32;
use std::cmp::Ordering;

/// The longest name that a key can have.
pub const MOST_NAME: usize = 31;

const PARENT_AT: usize = 2;
const NAME_LENGTH_AT: usize = 6;
const NAME_AT: usize = 7;

/// A key of a catalog record, without its lengths and its reserved byte.
///
/// Names compare by the weights of their bytes, so that names which differ in case only are equal.
#[derive(Clone, Copy, Debug)]
pub struct Key<'a> {
    pub parent: u32,
    pub name: &'a [u8],
}

impl<'a> Key<'a> {
    /// The key at the start of a record, which has a lawful name.
    pub(super) fn read(record: &'a [u8]) -> Key<'a> {
        let name = &record[NAME_AT..size(record)];
        Key { parent: be32(record, PARENT_AT), name }
    }
}

/// The bytes from the length of the key at the start of a record to the end of its name.
pub fn size(record: &[u8]) -> usize {
    NAME_AT + usize::from(record[NAME_LENGTH_AT])
}

/// Whether the key at the start of a record has a name that is not too long.
pub fn has_lawful_name(record: &[u8]) -> bool {
    size(record) <= NAME_AT + MOST_NAME
}

impl OrderedKey for Key<'_> {
    // The highest name there can be begins this one, which is too long for a key.
    const UNBOUNDED: Self = Key { parent: u32::MAX, name: &[0xFF; MOST_NAME + 1] };
}

impl Ord for Key<'_> {
    fn cmp(&self, other: &Self) -> Ordering {
        self.parent.cmp(&other.parent).then_with(|| compare_names(self.name, other.name))
    }
}

impl PartialOrd for Key<'_> {
    fn partial_cmp(&self, other: &Self) -> Option<Ordering> {
        Some(self.cmp(other))
    }
}

impl PartialEq for Key<'_> {
    fn eq(&self, other: &Self) -> bool {
        self.cmp(other).is_eq()
    }
}

impl Eq for Key<'_> {}

/// The first bytes that weigh differently decide; a name that begins another is below it.
fn compare_names(a: &[u8], b: &[u8]) -> Ordering {
    a.iter().map(weight).cmp(b.iter().map(weight))
}

fn weight(byte: &u8) -> u8 {
    WEIGHTS[usize::from(*byte)]
}
