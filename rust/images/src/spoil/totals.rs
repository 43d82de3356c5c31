//! Numbers 8 and 10: header totals that do not agree with the tree.

use super::{Moment, Patch, Place, Spoiling, Stage};
use crate::build::Built;

/// Number 8; at depth 0 the same fields are the header's fault.
pub fn leaf_spoilings<K>(built: &Built<K>) -> Vec<Spoiling> {
    let Some(leaves) = built.levels.last() else {
        return Vec::new();
    };
    let records = built.records.len() as u32;
    let first = leaves.numbers[0];
    let last = leaves.numbers[leaves.numbers.len() - 1];
    let faults = [
        ("leaf_records_one_over", Patch::long(20, records + 1)),
        ("leaf_records_one_short", Patch::long(20, records - 1)),
        ("leaf_records_high_byte", Patch::byte(20, 0x80)),
        ("first_leaf_0", Patch::long(24, 0)),
        ("first_leaf_next_node", Patch::long(24, first + 1)),
        ("last_leaf_0", Patch::long(28, 0)),
        ("last_leaf_next_node", Patch::long(28, last + 1)),
    ];
    let moment = Moment::once(Stage::LeafTotals);
    faults.map(|(what, patch)| spoiling(what, 8, moment, patch)).into()
}

/// Number 10.
pub fn free_spoilings<K>(built: &Built<K>) -> Vec<Spoiling> {
    let free = built.free.len() as u32;
    let faults = [
        ("free_one_over", Patch::long(40, free + 1)),
        // One below zero is the largest number, which must not wrap round to the total.
        ("free_one_short", Patch::long(40, free.wrapping_sub(1))),
        ("free_high_byte", Patch::byte(40, 0x80)),
    ];
    let moment = Moment::once(Stage::FreeCount);
    faults.map(|(what, patch)| spoiling(what, 10, moment, patch)).into()
}

fn spoiling(what: &str, number: u32, moment: Moment, patch: Patch) -> Spoiling {
    Spoiling {
        what: what.to_string(),
        edited: 0,
        number,
        place: Place::START,
        moment,
        patches: vec![patch],
    }
}
