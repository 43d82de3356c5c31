//! Changes of keys, which depend on what the keys of a tree are.

use super::family::Member;
use super::{Patch, Spoiling};
use crate::build::Built;
use crate::tree_key::TreeKey;

/// What can be wrong with the keys of a tree and the records around them, and what cannot.
pub trait KeyFaults: TreeKey {
    /// Number 5: changes of one node that give it a record which no node may have.
    fn unlawful(built: &Built<Self>, member: Member) -> Vec<(String, Patch)>;

    /// Number 6: keys out of order, out of the bounds set above them or unlike their pointers.
    fn misplaced(built: &Built<Self>) -> Vec<Spoiling>;

    /// Changes in the records of one node that no rule judges.
    fn unjudged(built: &Built<Self>, member: Member) -> Vec<(String, Vec<Patch>)>;
}
