//! What a tree has of its own: its keys, and the data under them.

use crate::format::Format;
use crate::rng::Rng;

/// A key of some tree, and how records have it.
pub trait TreeKey: Clone + Ord {
    /// The bytes of a leaf record before its data.
    fn size_in_leaf(&self, format: Format) -> usize;

    /// Writes the key of a leaf record, as far as it fits; bytes that no rule judges stay.
    fn put_in_leaf(&self, format: Format, node: &mut [u8], at: usize);

    /// Writes the key of an index record, as far as it fits; bytes that no rule judges stay.
    fn put_in_index(&self, format: Format, node: &mut [u8], at: usize);

    fn any(rng: &mut Rng, format: Format) -> Self;

    fn any_data(rng: &mut Rng, format: Format) -> Vec<u8>;
}
