//! Whether the keys of a node are lawful and ascend, in one quick pass.

use crate::key::key_and_fork;

const FULL_LEAF: usize = 22;

/// Whether all keys are lawful, the first is this one, they ascend, and the last is below the bound.
#[inline(always)]
pub fn keys_pass<const SIZE: usize>(records: &[[u8; SIZE]], first_key: u64, bound: u64) -> bool {
    // Most leaves are full, and where the count is known no time goes to counting.
    match <&[_; FULL_LEAF]>::try_from(records) {
        Ok(full) => any_number_passes(full, first_key, bound),
        Err(_) => any_number_passes(records, first_key, bound),
    }
}

#[inline(always)]
fn any_number_passes<const SIZE: usize>(
    records: &[[u8; SIZE]],
    first_key: u64,
    bound: u64,
) -> bool {
    let Some((first, later)) = records.split_first() else { return false };
    let (mut before, fork) = key_and_fork(first);
    if before != first_key {
        return false;
    }
    // The lawful fork bytes, FF and 00, come to 0 and 1, so that any other one leaves a higher bit.
    let mut forks = fork.wrapping_add(1);
    let ascends = |record: &[u8; SIZE]| {
        let (key, fork) = key_and_fork(record);
        forks |= fork.wrapping_add(1);
        let is_above = key > before;
        before = key;
        is_above
    };
    later.iter().all(ascends) && before < bound && forks <= 1
}
