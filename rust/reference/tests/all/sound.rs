//! Generated sound trees are sound, and hold what was built into them.

use crate::lent::check;
use images::{build, samples, Built, Plan};
use reference::{leaf_records, Verdict};
use std::ops::{Range, RangeInclusive};

fn assert_sound(built: &Built, name: &str) {
    assert_eq!(check(&built.image), Verdict::SOUND, "{name}");
    let listed = leaf_records(&built.image);
    assert_eq!(listed.len(), built.records.len(), "{name}");
    for (listed, record) in listed.iter().zip(&built.records) {
        let key = (listed.key.file, listed.key.fork, u32::from(listed.key.start));
        assert_eq!(key, (record.key.file, record.key.fork, record.key.start), "{name}");
        assert_eq!(listed.data[..], record.data, "{name}");
    }
}

fn each_random(
    depths: RangeInclusive<usize>,
    seeds: Range<u64>,
    widest: usize,
    test: fn(&Built, &str),
) {
    for depth in depths {
        for seed in seeds.clone() {
            let built = build(&Plan::random(seed, depth, widest));
            test(&built, &format!("depth {depth} seed {seed}"));
        }
    }
}

/// Reads every index record of the tree and compares it with the node that it points to.
fn assert_pointers_match(built: &Built, name: &str) {
    let at = |number: u32| number as usize * 512;
    let index_levels = built.depth().saturating_sub(1);
    for level in &built.levels[..index_levels] {
        for (&number, group) in level.numbers.iter().zip(&level.groups) {
            let records = built.image[at(number) + 14..].chunks_exact(12);
            for record in records.take(group.len()) {
                let (key, child) = record.split_at(8);
                let child = child.iter().fold(0, |number, &byte| number << 8 | u32::from(byte));
                let first_key = &built.image[at(child) + 14..at(child) + 22];
                assert_eq!(key, first_key, "{name}: pointer from {number} to {child}");
            }
        }
    }
}

#[test]
fn every_pointer_has_the_first_key_of_its_child() {
    each_random(0..=8, 0..20, 40, assert_pointers_match);
    assert_pointers_match(&samples::three_level(), "three_level");
    assert_pointers_match(&samples::largest(), "largest");
}

#[test]
fn random_trees_of_every_depth() {
    each_random(0..=8, 0..60, 40, assert_sound);
}

#[test]
fn wide_random_trees() {
    each_random(2..=5, 100..110, 1_100, assert_sound);
}

#[test]
fn trees_one_node_wide() {
    for depth in 1..=8 {
        let plan = Plan { records_per_leaf: 1..=1, ..Plan::tidy(7, &vec![1; depth]) };
        assert_sound(&build(&plan), &format!("depth {depth}"));
    }
}

#[test]
fn samples_are_sound() {
    assert_sound(&samples::two_level(), "two_level");
    assert_sound(&samples::three_level(), "three_level");
    assert_sound(&samples::longest_listed(), "longest_listed");
    assert_sound(&samples::three_level_large(), "three_level_large");
    assert_sound(&samples::needed_map_nodes(), "needed_map_nodes");
}

/// The largest tree has these levels, root first, and no node is left over.
fn assert_largest(built: &Built, total: u32, map_nodes: usize, level_sizes: &[usize]) {
    let name = format!("largest of {total}");
    assert_eq!((built.total(), built.map_chain.len()), (total, map_nodes));
    let sizes: Vec<usize> = built.levels.iter().map(|level| level.numbers.len()).collect();
    assert_eq!(sizes, level_sizes, "{name}");
    assert_eq!(built.records.len(), 22 * level_sizes.last().unwrap_or(&0), "{name}");
    assert!(built.free.is_empty(), "{name}");
    assert_sound(built, &name);
}

#[test]
fn largest_trees_have_the_levels_by_hand() {
    assert_largest(&samples::largest_of(1), 1, 0, &[]);
    // 1 + 95 + 3 + 1 nodes.
    assert_largest(&samples::largest_of(100), 100, 0, &[1, 3, 95]);
    // 1 + 1 + 5,825 + 167 + 5 + 1 nodes.
    assert_largest(&samples::largest_of(6_000), 6_000, 1, &[1, 5, 167, 5_825]);
}

#[test]
fn largest_has_65536_nodes_and_1400168_records() {
    let built = samples::largest();
    // 1 + 17 + 63,644 + 1,819 + 52 + 2 + 1 nodes.
    assert_largest(&built, 65_536, 17, &[1, 2, 52, 1_819, 63_644]);
    assert_eq!(built.records.len(), 1_400_168);
}

#[test]
fn nodes_that_no_largest_tree_can_use_are_free() {
    // Two leaves need a root: the header, one leaf and one node left over.
    let built = samples::largest_of(3);
    assert_eq!((built.total(), built.depth(), built.free.len()), (3, 1, 1));
    assert_sound(&built, "largest of 3");
}

#[test]
fn a_map_node_that_is_just_needed() {
    // Beside the header and the map nodes there are bits for so many; one more takes a map node.
    for (most, map_nodes) in [(2_048 - 1, 0), (6_000 - 2, 1), (9_952 - 3, 2), (65_280 - 17, 16)] {
        for more in [0, 1] {
            let free_nodes = most + more;
            let built = build(&Plan { free_nodes, ..Plan::tidy(8, &[]) });
            assert_eq!(built.map_chain.len(), map_nodes + more);
            assert_sound(&built, &format!("{free_nodes} free"));
        }
    }
}

#[test]
fn all_but_the_header_may_be_map_nodes() {
    let plan = Plan { map_nodes: 65_535, ..Plan::tidy(9, &[]) };
    assert_sound(&build(&plan), "only map nodes");
}

#[test]
fn the_same_plan_gives_the_same_bytes() {
    let plan = Plan::random(11, 4, 40);
    assert!(build(&plan).image == build(&plan).image);
}
