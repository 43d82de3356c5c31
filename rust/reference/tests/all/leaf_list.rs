//! Where the records of the leaf list stand, and that lookups give the same places.

use crate::lent::lookup;
use images::bench::{e1, l1, leaf_with, two_leaves};
use images::by_hand::three_levels_by_hand;
use images::samples;
use reference::{leaf_records, Answer, Place};

/// Node, record number and start of every record of the list.
fn places(image: &[u8]) -> Vec<(u32, u32, u32)> {
    leaf_records(image).iter().map(|listed| (listed.node, listed.record, listed.start)).collect()
}

#[test]
fn places_in_small_trees() {
    assert_eq!(places(&e1()), []);
    assert_eq!(places(&l1()), [(1, 0, 14)]);
    assert_eq!(places(&two_leaves()), [(2, 0, 14), (3, 0, 14), (3, 1, 34)]);
    let by_hand = [
        (4, 0, 14),
        (4, 1, 34),
        (5, 0, 14),
        (5, 1, 34),
        (6, 0, 14),
        (6, 1, 34),
        (7, 0, 14),
        (7, 1, 34),
    ];
    assert_eq!(places(&three_levels_by_hand()), by_hand);
}

#[test]
fn starts_in_a_full_leaf() {
    let starts = [
        14, 34, 54, 74, 94, 114, 134, 154, 174, 194, 214, 234, 254, 274, 294, 314, 334, 354, 374,
        394, 414, 434,
    ];
    let expected: Vec<_> = (0..).zip(starts).map(|(record, start)| (1, record, start)).collect();
    assert_eq!(places(&leaf_with(22)), expected);
    // A count of 23 is unsound; no more records are taken than a leaf can hold.
    assert_eq!(places(&leaf_with(23)), expected);
}

#[test]
fn places_in_the_samples() {
    for built in [samples::two_level(), samples::three_level(), samples::largest()] {
        let leaves = &built.levels[built.depth() - 1];
        let mut expected = Vec::new();
        for (&number, group) in leaves.numbers.iter().zip(&leaves.groups) {
            expected
                .extend((0..group.len() as u32).map(|record| (number, record, 14 + 20 * record)));
        }
        assert_eq!(places(&built.image), expected);
    }
}

#[test]
fn found_gives_the_node_and_the_start() {
    for image in [l1(), leaf_with(22), three_levels_by_hand(), samples::two_level().image] {
        for listed in leaf_records(&image) {
            let found = lookup(&image, listed.key.file, listed.key.fork, listed.key.start);
            let place = Place { node: listed.node, offset: listed.start };
            assert_eq!(found.answer, Answer::Found { place });
            // The data follow the 8 bytes of the key.
            let data = listed.node as usize * 512 + listed.start as usize + 8;
            assert_eq!(found.data, Some(data..data + 12));
        }
    }
}
