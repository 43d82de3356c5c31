//! First keys unlike their pointers, by a change of either.

use super::order::{rekeyed, set_pointer, Fault};
use crate::catalog::character_order::rank;
use crate::catalog::{Built, Key};
use crate::spoil::family::Member;
use std::iter::successors;

pub fn faults(built: &Built, member: Member) -> Vec<Fault> {
    let first = member.key(built, 0);
    let mut found = Vec::from_iter(first_key_above(built, member));
    let lower = [("prefix_of", first.prefix()), ("below", just_below(&first))];
    for (how, key) in lower {
        let above_left = |key: &Key| member.key_before(built).is_none_or(|before| before < *key);
        found
            .extend(key.filter(above_left).and_then(|key| moved_pointer(built, member, how, &key)));
    }
    let stays_below = |key: &Key| member.upper_bound(built).is_none_or(|bound| *key < bound);
    let above = first.next().filter(stays_below);
    found.extend(above.and_then(|key| moved_pointer(built, member, "above", &key)));
    found
}

/// The key with a last byte of the next lower weight.
fn just_below(key: &Key) -> Option<Key> {
    let &last = key.name.last()?;
    let lower = rank(last).checked_sub(1)?;
    key.with_last((0..=255).find(|&byte| rank(byte) == lower)?)
}

/// The nearest first key over that of the pointer, where it keeps the order and the bounds.
fn first_key_above(built: &Built, member: Member) -> Option<Fault> {
    let above = member.pointer_key(built)?.next()?;
    let next = match member.record_count(built) {
        1 => member.upper_bound(built),
        _ => Some(member.key(built, 1)),
    };
    if next.is_some_and(|next| next <= above) {
        return None;
    }
    rekeyed(built, member, "first_key_above_pointer".to_string(), 0, &[(0, above)])
}

/// Another key in the pointer to the node, and in each one above that has to equal it.
fn moved_pointer(built: &Built, member: Member, how: &str, key: &Key) -> Option<Fault> {
    let (parent, record) = member.parent(built)?;
    let moved = successors(Some((parent, record)), |&(node, record)| match record {
        0 => node.parent(built),
        _ => None,
    });
    Some(Fault {
        what: format!("pointer_{record}_{how}_first_key"),
        edited: parent,
        // The pointer keeps the rules of its own node, so its child's first key is at fault.
        offset: member.starts(built)[0],
        patches: moved.map(|(node, record)| set_pointer(built, node, record, key)).collect(),
    })
}
