//! Where a node hangs in the tree.

use crate::place::Place;

/// The road to a node, as far as the tests of the node need it.
pub struct Position<Key> {
    /// Where the number of the node stands: in its parent or, for the root, in the header.
    pub named_at: Place,
    pub level: usize,
    /// The key of the pointer record that leads here; none leads to the root.
    pub pointer_key: Option<Key>,
    /// What the pointers on the road ask all keys to stay below.
    pub bound: Key,
}
