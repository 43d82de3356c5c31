//! Two key faults or more in one node, of which the first in record order counts.

use super::{after_raised, ends_and_middle, rekeyed, Fault};
use crate::build::Built;
use crate::spoil::family::Member;

pub fn faults(built: &Built, member: Member) -> Vec<Fault> {
    let count = member.record_count(built);
    if count < 3 {
        return Vec::new();
    }
    let mut found = vec![all_equal(built, member), reversed(built, member)];
    // Pairs before the last two records, so that the changes do not meet.
    for pair in ends_and_middle(count - 3) {
        found.push(two_pairs_equal(built, member, pair));
    }
    for pair in ends_and_middle(count - 2) {
        found.extend(equal_then_at_next_pointer(built, member, pair));
    }
    found.extend(unlike_pointer_then_equal(built, member));
    found.extend(below_pointer_then_at_next_pointer(built, member));
    found
}

fn all_equal(built: &Built, member: Member) -> Fault {
    let first_key = member.key(built, 0);
    let keys: Vec<_> = (1..member.record_count(built)).map(|record| (record, first_key)).collect();
    rekeyed(built, member, "all_keys_equal".to_string(), 1, &keys)
}

fn reversed(built: &Built, member: Member) -> Fault {
    let count = member.record_count(built);
    let mirrored = |record| (record, member.key(built, count - 1 - record));
    let keys: Vec<_> = (0..count).map(mirrored).collect();
    rekeyed(built, member, "keys_reversed".to_string(), after_raised(built, member, 0), &keys)
}

fn two_pairs_equal(built: &Built, member: Member, pair: usize) -> Fault {
    let (second, last) = (pair + 1, member.record_count(built) - 1);
    let keys = [(second, member.key(built, pair)), (last, member.key(built, last - 1))];
    let what = format!("keys_{second}_and_{last}_lowered_to_the_ones_before");
    rekeyed(built, member, what, second, &keys)
}

fn equal_then_at_next_pointer(built: &Built, member: Member, pair: usize) -> Option<Fault> {
    let bound = member.upper_bound(built)?;
    let (second, last) = (pair + 1, member.record_count(built) - 1);
    let keys = [(second, member.key(built, pair)), (last, bound)];
    let what = format!("key_{second}_lowered_and_{last}_at_next_pointer");
    Some(rekeyed(built, member, what, second, &keys))
}

fn unlike_pointer_then_equal(built: &Built, member: Member) -> Option<Fault> {
    let above = built.format.key_of_rank(member.pointer_rank(built)? + 1);
    let last = member.record_count(built) - 1;
    let keys = [(0, above), (last, member.key(built, last - 1))];
    let what = format!("first_key_above_pointer_and_{last}_lowered");
    Some(rekeyed(built, member, what, 0, &keys))
}

fn below_pointer_then_at_next_pointer(built: &Built, member: Member) -> Option<Fault> {
    let below = built.format.key_of_rank(member.pointer_rank(built)?.checked_sub(1)?);
    let last = member.record_count(built) - 1;
    let keys = [(0, below), (last, member.upper_bound(built)?)];
    let what = format!("first_key_below_pointer_and_{last}_at_next_pointer");
    Some(rekeyed(built, member, what, 0, &keys))
}
