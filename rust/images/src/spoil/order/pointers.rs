//! First keys unlike their pointers, by a change of either.

use super::{rekeyed, set_key, Fault};
use crate::build::Built;
use crate::key::Key;
use crate::spoil::family::Member;
use std::iter::successors;

pub fn faults(built: &Built, member: Member) -> Vec<Fault> {
    let known = [
        first_key_above(built, member),
        pointer_below(built, member),
        pointer_far_below(built, member),
        pointer_above(built, member),
    ];
    known.into_iter().flatten().collect()
}

/// The nearest first key over that of the pointer, where it keeps the order and the bounds.
fn first_key_above(built: &Built, member: Member) -> Option<Fault> {
    let rank = member.pointer_rank(built)? + 1;
    let next = match member.record_count(built) {
        1 => member.upper_bound(built),
        _ => Some(member.key(built, 1)),
    };
    if !is_below(built, rank, next) {
        return None;
    }
    let what = "first_key_above_pointer".to_string();
    Some(rekeyed(built, member, what, 0, &[(0, built.format.key_of_rank(rank))]))
}

/// The nearest pointer over the child's first key, where it keeps the order of its own node.
fn pointer_above(built: &Built, member: Member) -> Option<Fault> {
    let rank = first_rank(built, member) + 1;
    if !is_below(built, rank, member.upper_bound(built)) {
        return None;
    }
    moved_pointer(built, member, "above", rank)
}

/// The nearest pointer under the child's first key, where all keys left of the child stay below it.
fn pointer_below(built: &Built, member: Member) -> Option<Fault> {
    let rank = first_rank(built, member).checked_sub(1)?;
    if rank < lowest_pointer(built, member) {
        return None;
    }
    moved_pointer(built, member, "below", rank)
}

/// The lowest pointer that keeps the order and all bounds, where it is not the nearest too.
fn pointer_far_below(built: &Built, member: Member) -> Option<Fault> {
    let rank = lowest_pointer(built, member);
    if rank + 1 >= first_rank(built, member) {
        return None;
    }
    moved_pointer(built, member, "far_below", rank)
}

/// The pointer bounds all that is left of the child, so it has to stay above that.
fn lowest_pointer(built: &Built, member: Member) -> u128 {
    member.key_before(built).map_or(0, |key| built.format.rank_of(key) + 1)
}

/// Another key in the pointer to the node, and in each one above that has to equal it.
fn moved_pointer(built: &Built, member: Member, how: &str, rank: u128) -> Option<Fault> {
    let (parent, record) = member.parent(built)?;
    let moved = successors(Some((parent, record)), |&(node, record)| match record {
        0 => node.parent(built),
        _ => None,
    });
    let key = built.format.key_of_rank(rank);
    Some(Fault {
        what: format!("pointer_{record}_{how}_first_key"),
        edited: parent,
        // The pointer keeps the rules of its own node, so its child's first key is at fault.
        record: 0,
        patches: moved.map(|(node, record)| set_key(built, node, record, key)).collect(),
    })
}

fn first_rank(built: &Built, member: Member) -> u128 {
    built.format.rank_of(member.key(built, 0))
}

fn is_below(built: &Built, rank: u128, bound: Option<Key>) -> bool {
    bound.is_none_or(|bound| rank < built.format.rank_of(bound))
}
