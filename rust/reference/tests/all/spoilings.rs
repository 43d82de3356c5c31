//! Spoiled images of HFS: each gives its number, and the place that the table has for it.

use crate::formats::table::assert_refused;
use images::spoil::{by_number, spoilings, Spoiling};
use images::{build, samples, Built, Plan};
use std::collections::BTreeSet;

#[test]
fn random_trees_spoiled_in_every_way() {
    for depth in 0..=8 {
        for seed in 200..206 {
            let built = build(&Plan::random(seed, depth, 6));
            for spoiling in spoilings(&built) {
                assert_refused(&built, &spoiling);
            }
        }
    }
}

#[test]
fn map_nodes_whose_numbers_fall_along_the_chain() {
    let built = samples::falling_map_nodes();
    assert!(built.map_chain.len() > 2 && built.map_chain.is_sorted_by(|a, b| a > b));
    for spoiling in spoilings(&built) {
        assert_refused(&built, &spoiling);
    }
}

#[test]
fn names_are_told_apart() {
    for built in [samples::two_level(), samples::three_level(), samples::falling_map_nodes()] {
        let mut names = BTreeSet::new();
        for spoiling in spoilings(&built) {
            assert!(names.insert(spoiling.name()), "{} twice", spoiling.name());
        }
    }
}

/// The places of all spoilings of a number, with how many bytes or keys each of them changes.
fn places(built: &Built, number: u32) -> BTreeSet<(u32, u32, usize)> {
    let known = by_number(built, number);
    known.iter().map(|known| (known.place.node, known.place.offset, known.patches.len())).collect()
}

#[test]
fn every_end_of_a_map_record_has_a_wrong_bit() {
    let built = samples::falling_map_nodes();
    let places = places(&built, 9);
    let in_header = (0, 0xF8, 0x1F7);
    let in_map_nodes = built.map_chain.iter().map(|&number| (number, 0x0E, 0x1FB));
    for (node, first, last) in [in_header].into_iter().chain(in_map_nodes) {
        assert!(places.contains(&(node, first, 1)), "first byte of {node}");
        assert!(places.contains(&(node, last, 1)), "last byte of {node}");
        // With another one later on: from the first byte always, from the last in all but one.
        assert!(places.contains(&(node, first, 2)), "first byte of {node} and a later one");
        let is_last = built.map_chain.last() == Some(&node);
        assert_eq!(places.contains(&(node, last, 2)), !is_last, "last byte of {node} and the next");
    }
}

#[test]
fn every_record_of_a_full_leaf_has_a_wrong_key() {
    let built = samples::two_level();
    let leaves = &built.levels[1];
    let full = leaves.groups.iter().position(|group| group.len() == 22).expect("a full leaf");
    let number = leaves.numbers[full];
    let places = places(&built, 6);
    for record in 0..22 {
        assert!(places.contains(&(number, 14 + 20 * record, 1)), "record {record}");
    }
    // The root has 34 records, and no rule for the first of its keys.
    let root = built.levels[0].numbers[0];
    assert!(!places.iter().any(|&(node, offset, _)| (node, offset) == (root, 14)));
    for record in 1..34 {
        assert!(places.contains(&(root, 14 + 12 * record, 1)), "record {record} of the root");
    }
}

#[test]
fn every_link_of_a_level_is_wrong_alone_and_the_back_links_with_others() {
    let built = samples::three_level();
    let places = places(&built, 7);
    for number in built.levels.iter().flat_map(|level| &level.numbers) {
        assert!(places.contains(&(*number, 0, 1)) && places.contains(&(*number, 4, 1)));
        assert!(places.contains(&(*number, 4, 2)) && !places.contains(&(*number, 0, 2)));
    }
}

#[test]
fn every_number_of_the_table_occurs() {
    let built = samples::three_level();
    for number in 1..=10 {
        assert!(!by_number(&built, number).is_empty(), "number {number}");
    }
}

#[test]
fn pointers_and_first_keys_differ_both_ways_on_every_level() {
    let built = samples::three_level();
    let known = by_number(&built, 6);
    let ways = [
        "key_0_below_pointer",
        "first_key_above_pointer",
        "pointer__below_first_key",
        "pointer__far_below_first_key",
        "pointer__above_first_key",
    ];
    let is = |spoiling: &Spoiling, way: &str| {
        spoiling.what == way || spoiling.what.replace(char::is_numeric, "") == way
    };
    for level in &built.levels[1..] {
        for way in ways {
            let mut of_way = known.iter().filter(|spoiling| is(spoiling, way));
            let occurs = of_way.any(|spoiling| level.numbers.contains(&spoiling.place.node));
            assert!(occurs, "{way} on the level of {:?}", level.numbers);
        }
    }
}

#[test]
fn a_large_tree_spoiled_here_and_there() {
    for built in [samples::largest_of(6_000), samples::needed_map_nodes()] {
        for number in 1..=10 {
            let known = by_number(&built, number);
            let step = known.len().div_ceil(40);
            for spoiling in known.iter().step_by(step).chain(known.last()) {
                assert_refused(&built, spoiling);
            }
        }
    }
}

#[test]
fn a_needed_map_node_cannot_be_cut_off() {
    let sizes = [(samples::three_level_large(), 1), (samples::needed_map_nodes(), 3)];
    for (built, map_nodes) in sizes.into_iter().chain([(samples::largest(), 17)]) {
        let known = by_number(&built, 3);
        let cuts: Vec<_> = known.iter().filter(|known| known.what == "map_chain_cut").collect();
        // The header's link to the first map node, then that of every map node but the last.
        let before_last = &built.map_chain[..map_nodes - 1];
        let at_fault: Vec<u32> = cuts.iter().map(|cut| cut.place.node).collect();
        assert_eq!(at_fault, [&[0], before_last].concat());
        for cut in cuts {
            assert_refused(&built, cut);
        }
    }
}
