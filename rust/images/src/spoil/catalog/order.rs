//! Number 6: keys out of order, out of the bounds set above them or unlike their pointers.

use super::pointers;
use super::record_at;
use super::relaid::{records, relaid};
use crate::catalog::character_order::rank;
use crate::catalog::{Built, Key};
use crate::node::{fit_in_leaf, leaf_starts};
use crate::spoil::family::{visit_order, Member};
use crate::spoil::{Moment, Patch, Place, Spoiling, Stage, Step};

/// Changed keys, and where in a node that puts the first record at fault.
pub struct Fault {
    pub what: String,
    pub edited: Member,
    pub offset: usize,
    pub patches: Vec<Patch>,
}

pub fn spoilings(built: &Built) -> Vec<Spoiling> {
    let mut found = Vec::new();
    for (visit, &member) in visit_order(built).iter().enumerate() {
        let faults = (1..member.record_count(built))
            .flat_map(|record| not_above(built, member, record))
            .chain(out_of_bounds(built, member))
            .chain(pointers::faults(built, member));
        found.extend(faults.map(|fault| Spoiling {
            what: fault.what,
            edited: fault.edited.number(built),
            number: 6,
            place: Place { node: member.number(built), offset: fault.offset as u32 },
            moment: Moment::at(Stage::Tree, visit as u32, Step::Order),
            patches: fault.patches,
        }));
    }
    found
}

/// Keys for a record that are not above the one before it.
fn not_above(built: &Built, member: Member, record: usize) -> Vec<Fault> {
    let before = member.key(built, record - 1);
    let known = [
        ("equal_to_the_one_before", Some(before.clone())),
        ("a_twin_of_the_one_before", before.twin()),
        ("a_prefix_of_the_one_before", before.prefix()),
        ("above_the_one_before_by_bytes_only", above_by_bytes_only(&before)),
        ("above_the_one_before_by_sign_only", above_by_sign_only(&before)),
    ];
    let named = known.into_iter().filter_map(|(how, key)| Some((how, key?)));
    named
        .filter_map(|(how, key)| {
            let what = format!("key_{record}_{how}");
            rekeyed(built, member, what, record, &[(record, key)])
        })
        .collect()
}

/// A key whose last byte is higher and weighs less.
fn above_by_bytes_only(before: &Key) -> Option<Key> {
    let &last = before.name.last()?;
    let mut higher = last..=0xFF;
    before.with_last(higher.find(|&byte| rank(byte) < rank(last))?)
}

/// A key whose parent is lower, but higher if the top bit is a sign.
fn above_by_sign_only(before: &Key) -> Option<Key> {
    let is_negative = before.parent > i32::MAX as u32;
    is_negative.then(|| Key::new(1, &before.name))
}

/// The bound above as a key, in its own bytes and in others that weigh the same.
fn out_of_bounds(built: &Built, member: Member) -> Vec<Fault> {
    let Some(bound) = member.upper_bound(built) else {
        return Vec::new();
    };
    let last = member.record_count(built) - 1;
    let known = [("at_next_pointer", Some(bound.clone())), ("twin_of_next_pointer", bound.twin())];
    let named = known.into_iter().filter_map(|(how, key)| Some((how, key?)));
    named
        .filter_map(|(how, key)| {
            rekeyed(built, member, format!("key_{last}_{how}"), last, &[(last, key)])
        })
        .collect()
}

/// Gives records of one node other keys, of which one is the first at fault; none if a leaf has no
/// room for them.
pub fn rekeyed(
    built: &Built,
    member: Member,
    what: String,
    at_fault: usize,
    keys: &[(usize, Key)],
) -> Option<Fault> {
    if !member.is_leaf(built) {
        let patches = keys.iter().map(|(record, key)| set_pointer(built, member, *record, key));
        let offset = member.starts(built)[at_fault];
        return Some(Fault { what, edited: member, offset, patches: patches.collect() });
    }
    let mut records = records(built, member);
    for (record, key) in keys {
        records[*record].key = key.clone();
    }
    let offset = leaf_starts(built.format, &records)[at_fault];
    let patches = vec![relaid(built, member, &records)];
    let fits = fit_in_leaf(built.format, &records);
    fits.then_some(Fault { what, edited: member, offset, patches })
}

/// Another key in a record of an index node, whose bytes past the name stay.
pub fn set_pointer(built: &Built, member: Member, record: usize, key: &Key) -> Patch {
    Patch::bytes(record_at(built, member, record) + 2, &key.after_reserved())
}
