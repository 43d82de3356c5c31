//! Keys out of the bounds that the path sets.

use super::{after_raised, ends_and_middle, rekeyed, Fault};
use crate::build::Built;
use crate::spoil::family::Member;

pub fn faults(built: &Built, member: Member) -> Vec<Fault> {
    let mut found = Vec::new();
    for record in ends_and_middle(member.record_count(built)) {
        found.extend(at_next_pointer(built, member, record));
        found.extend(all_from_next_pointer(built, member, record));
        found.extend(highest(built, member, record));
        found.extend(below_pointer(built, member, record));
    }
    found
}

/// The bound above is exclusive, so a key equal to it is wrong, however far up it was set.
fn at_next_pointer(built: &Built, member: Member, record: usize) -> Option<Fault> {
    let bound = member.upper_bound(built)?;
    let what = format!("key_{record}_at_next_pointer");
    Some(rekeyed(built, member, what, record, &[(record, bound)]))
}

/// The records from one on keep their order, but all of them are beyond the bound.
fn all_from_next_pointer(built: &Built, member: Member, record: usize) -> Option<Fault> {
    let bound = built.format.rank_of(member.upper_bound(built)?);
    let beyond = (bound..).map(|rank| built.format.key_of_rank(rank));
    let keys: Vec<_> = (record..member.record_count(built)).zip(beyond).collect();
    let what = format!("keys_from_{record}_on_beyond_next_pointer");
    // Of the last record alone, this would be the fault above once more.
    (keys.len() > 1).then(|| rekeyed(built, member, what, record, &keys))
}

/// The highest key there is breaks the bound or, where there is none, the order after it.
fn highest(built: &Built, member: Member, record: usize) -> Option<Fault> {
    let is_last = record + 1 == member.record_count(built);
    let at_fault = match member.upper_bound(built) {
        Some(_) => record,
        None if is_last => return None,
        None => after_raised(built, member, record),
    };
    let what = format!("key_{record}_highest");
    let key = built.format.key_of_rank(built.format.lawful_keys() - 1);
    Some(rekeyed(built, member, what, at_fault, &[(record, key)]))
}

/// The nearest key under that of the pointer; in record 0 it is also unlike the pointer's.
fn below_pointer(built: &Built, member: Member, record: usize) -> Option<Fault> {
    let below = built.format.key_of_rank(member.pointer_rank(built)?.checked_sub(1)?);
    let what = format!("key_{record}_below_pointer");
    Some(rekeyed(built, member, what, record, &[(record, below)]))
}
