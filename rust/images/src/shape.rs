//! Which node holds what: how records and nodes are shared out, and the pointer keys over them.

use crate::format::Format;
use crate::key::Key;
use crate::node::Record;
use crate::plan::Plan;
use crate::rng::Rng;
use crate::tree_key::TreeKey;
use std::ops::Range;

/// One level of a tree before it has node numbers.
pub struct ShapeLevel<K> {
    /// Of each node: its children on the level below, or its records if it is a leaf.
    pub groups: Vec<Range<usize>>,
    /// Of each node: its first key, which the pointer record that leads to it has as well.
    pub pointers: Vec<K>,
}

/// Shares the children out over the parents, at least one to each and at most what fits.
pub fn share_nodes(rng: &mut Rng, plan: &Plan) -> Vec<Vec<Range<usize>>> {
    let most = plan.format.most_index_records();
    plan.level_sizes
        .windows(2)
        .map(|pair| {
            let counts = share(rng, pair[1], pair[0], most);
            consecutive(&counts)
        })
        .collect()
}

/// Shares records out over the leaves as the plan wishes.
pub fn share_records(rng: &mut Rng, plan: &Plan) -> Vec<Range<usize>> {
    let leaves = plan.level_sizes.last().copied().unwrap_or(0);
    let (least, most) = plan.records_per_leaf.clone().into_inner();
    let counts: Vec<usize> =
        (0..leaves).map(|_| rng.between(least as u64, most as u64) as usize).collect();
    consecutive(&counts)
}

/// Shares so many records out over the leaves, at least one to each and at most what fits.
pub fn share_given(rng: &mut Rng, plan: &Plan, records: usize) -> Vec<Range<usize>> {
    let leaves = plan.level_sizes.last().copied().unwrap_or(0);
    consecutive(&share(rng, records, leaves, plan.format.most_leaf_records()))
}

/// Records with strictly ascending keys, some close together and some far apart.
pub fn make_records(rng: &mut Rng, format: Format, count: usize) -> Vec<Record> {
    let widest_gap = format.lawful_keys() / (count as u128 + 1);
    let widest_gap = u64::try_from(widest_gap).unwrap_or(u64::MAX);
    // As far as the next fork, which is 16 bits further away where start blocks have 32.
    let beyond_fork = 70_000 << (format.start_bits() - 16);
    let gaps = [1, 1, 3, 40, beyond_fork, 1_000_000, widest_gap];
    let mut rank = u128::from(rng.between(0, 2));
    (0..count)
        .map(|_| {
            let key = format.key_of_rank(rank);
            let gap = gaps[rng.index(gaps.len())].min(widest_gap);
            rank += u128::from(rng.between(1, gap));
            Record { key, data: Key::any_data(rng, format) }
        })
        .collect()
}

/// The pointer keys over every level, each the first key of its child.
pub fn add_pointers<K: TreeKey>(
    groups: Vec<Vec<Range<usize>>>,
    records: &[Record<K>],
) -> Vec<ShapeLevel<K>> {
    let mut levels: Vec<ShapeLevel<K>> = Vec::new();
    // The keys on a level are the pointers to the level below, so the leaves come first.
    let mut keys: Vec<K> = records.iter().map(|record| record.key.clone()).collect();
    for groups in groups.into_iter().rev() {
        let pointers: Vec<K> = groups.iter().map(|group| keys[group.start].clone()).collect();
        keys.clone_from(&pointers);
        levels.push(ShapeLevel { groups, pointers });
    }
    levels.reverse();
    levels
}

fn share(rng: &mut Rng, items: usize, parts: usize, most: usize) -> Vec<usize> {
    let mut left = items;
    (0..parts)
        .rev()
        .map(|parts_after| {
            // What the later parts cannot take has to go here; what they need must be left.
            let least_here = left.saturating_sub(most * parts_after).max(1);
            let most_here = (left - parts_after).min(most);
            let taken = rng.between(least_here as u64, most_here as u64) as usize;
            left -= taken;
            taken
        })
        .collect()
}

pub fn consecutive(counts: &[usize]) -> Vec<Range<usize>> {
    let mut start = 0;
    counts
        .iter()
        .map(|&count| {
            let group = start..start + count;
            start = group.end;
            group
        })
        .collect()
}
