//! Keys that are not above the one before.

use super::{after_raised, ends_and_middle, rekeyed, Fault};
use crate::build::Built;
use crate::spoil::family::Member;

pub fn faults(built: &Built, member: Member) -> Vec<Fault> {
    let pair_count = member.record_count(built) - 1;
    let mut found: Vec<Fault> = (0..pair_count).map(|pair| lowered(built, member, pair)).collect();
    for pair in ends_and_middle(pair_count) {
        found.push(raised(built, member, pair));
        found.push(swapped(built, member, pair));
    }
    found
}

/// Two equal keys by a change of the second.
fn lowered(built: &Built, member: Member, first: usize) -> Fault {
    let second = first + 1;
    let what = format!("key_{second}_lowered_to_the_one_before");
    rekeyed(built, member, what, second, &[(second, member.key(built, first))])
}

/// Two equal keys by a change of the first; the second is at fault all the same.
fn raised(built: &Built, member: Member, first: usize) -> Fault {
    let what = format!("key_{first}_raised_to_the_next");
    let at_fault = after_raised(built, member, first);
    rekeyed(built, member, what, at_fault, &[(first, member.key(built, first + 1))])
}

fn swapped(built: &Built, member: Member, first: usize) -> Fault {
    let second = first + 1;
    let what = format!("keys_{first}_and_{second}_swapped");
    let keys = [(first, member.key(built, second)), (second, member.key(built, first))];
    rekeyed(built, member, what, after_raised(built, member, first), &keys)
}
