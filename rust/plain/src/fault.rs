//! What is wrong with a node that has not passed.

use crate::key::{has_right_length, is_lawful_fork, key, key_and_fork};
use crate::node::Node;
use crate::records::{has_right_offsets, start};
use crate::verdict::Verdict;
use crate::walk::Position;

/// The verdict on a node with a possible count, and with wrong offset words or keys.
#[cold]
pub fn fault_of<const SIZE: usize>(
    node: &Node,
    records: &[[u8; SIZE]],
    number: u32,
    position: Position,
) -> Verdict {
    let well_formed =
        has_right_offsets::<SIZE>(node, records.len()) && records.iter().all(has_lawful_key);
    if well_formed {
        Verdict::key_order(number, start::<SIZE>(first_misplaced(records, position)))
    } else {
        Verdict::node_form(number)
    }
}

fn has_lawful_key<const SIZE: usize>(record: &[u8; SIZE]) -> bool {
    let (key, fork) = key_and_fork(record);
    has_right_length(key) && is_lawful_fork(fork)
}

/// The first record whose key breaks any rule; as they have not passed, there is one.
fn first_misplaced<const SIZE: usize>(records: &[[u8; SIZE]], position: Position) -> usize {
    let mut before = None;
    let is_right = |record: &&[u8; SIZE]| {
        let key = key(record);
        let follows = before.map_or(key == position.first_key, |before| key > before);
        before = Some(key);
        follows && key < position.bound
    };
    records.iter().take_while(is_right).count()
}
