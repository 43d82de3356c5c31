//! Number 6 in an extents tree: keys out of order, out of the bounds set above them or unlike their
//! pointers.

mod bounds;
mod pairs;
mod pointers;
mod twice;

use super::family::{visit_order, Member};
use super::{Moment, Patch, Place, Spoiling, Stage, Step};
use crate::build::Built;
use crate::key::Key;

/// Changed keys, and which record of a node that makes the first one at fault.
struct Fault {
    what: String,
    edited: Member,
    record: usize,
    patches: Vec<Patch>,
}

pub fn spoilings(built: &Built) -> Vec<Spoiling> {
    let mut found = Vec::new();
    for (visit, &member) in visit_order(built).iter().enumerate() {
        let faults = pairs::faults(built, member)
            .into_iter()
            .chain(bounds::faults(built, member))
            .chain(pointers::faults(built, member))
            .chain(twice::faults(built, member));
        found.extend(faults.map(|fault| Spoiling {
            what: fault.what,
            edited: fault.edited.number(built),
            number: 6,
            place: Place::of_byte(built.format, record_at(built, member, fault.record)),
            moment: Moment::at(Stage::Tree, visit as u32, Step::Order),
            patches: fault.patches,
        }));
    }
    found
}

/// Gives records of one node other keys.
fn rekeyed(
    built: &Built,
    member: Member,
    what: String,
    at_fault: usize,
    keys: &[(usize, Key)],
) -> Fault {
    let set = |&(record, key): &(usize, Key)| set_key(built, member, record, key);
    Fault { what, edited: member, record: at_fault, patches: keys.iter().map(set).collect() }
}

fn set_key(built: &Built, member: Member, record: usize, key: Key) -> Patch {
    // No rule judges the pad, so equal keys may differ in it.
    let pad = 0xA5 ^ record as u8;
    Patch::bytes(record_at(built, member, record), &built.format.key_bytes(key, pad))
}

/// Where a record starts in the image.
pub fn record_at(built: &Built, member: Member, record: usize) -> usize {
    member.at(built) + member.starts(built)[record]
}

/// The record at fault where the key of `raised` is at or over the next one but within the bounds:
/// the next, or record 0 itself where a pointer has its key.
fn after_raised(built: &Built, member: Member, raised: usize) -> usize {
    if raised == 0 && member.parent(built).is_some() {
        0
    } else {
        raised + 1
    }
}

/// The first, a middle and the last of some indices, each once.
fn ends_and_middle(count: usize) -> Vec<usize> {
    let mut picked = vec![0, count / 2, count.saturating_sub(1)];
    picked.dedup();
    picked.retain(|&index| index < count);
    picked
}
