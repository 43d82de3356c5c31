//! Many keys after one check: which results are written, and what a call that refuses leaves as it was.

use crate::rows::*;
use images::bench::*;
use images::by_hand::three_levels_by_hand;
use images::spoil::{by_number, spoilings, Spoiling};
use images::{samples, Built};
use reference::{lookup_many, Place, Verdict};

/// The call gives the verdict, leaves the row of results as it was and the working bytes as said.
#[track_caller]
fn leaves_results(
    image: &[u8],
    (keys, row): (&[u64], usize),
    lent: &[u8],
    verdict: Verdict,
    left: &[u8],
) {
    let mut results: Vec<u32> = (0..row as u32).map(|index| OLD + index).collect();
    let old = results.clone();
    let mut work = lent.to_vec();
    assert_eq!(lookup_many(image, keys, &mut results, &mut work), verdict);
    assert_eq!(results, old);
    assert!(work == left, "the call leaves {work:02X?}, not {left:02X?}");
}

#[test]
fn no_keys() {
    for row in [0, 1, 3] {
        let none = (&[][..], row);
        leaves_results(&e1(), none, &[7, 8], SOUND, &[0x80, 8]);
        leaves_results(&l1(), none, &[7, 8], SOUND, &[0xC0, 8]);
        leaves_results(&three_levels_by_hand(), none, &[7, 8, 9], SOUND, &[0xFF, 0x20, 9]);
        let links = Verdict { number: 7, place: Place { node: 1, offset: 4 } };
        leaves_results(&l1_with_back_link_1(), none, &[7, 8], links, &[0, 8]);
        leaves_results(&e1_with_free_1(), none, &[7, 8], at_start(10), &[0, 8]);
        leaves_results(&[], none, &[7, 8], LENGTH, &[7, 8]);
        leaves_results(&[0; 511], none, &[], LENGTH, &[]);
        leaves_results(&l1(), none, &[], TOO_FEW, &[]);
        leaves_results(&three_levels_by_hand(), none, &[7], TOO_FEW, &[7]);
    }
}

#[test]
fn rows_of_results() {
    let keys = [GOOD, GOOD + 1, TWO_TO_THE_56];
    for row in 0..3 {
        leaves_results(&l1(), (&keys, row), &[7, 8], SHORT_ROW, &[7, 8]);
    }
    for beyond in [0, 1, 2, 50] {
        let mut results: Vec<u32> = (0..3 + beyond).collect();
        let kept = results[3..].to_vec();
        let mut work = [7, 8];
        assert_eq!(lookup_many(&l1(), &keys, &mut results, &mut work), SOUND);
        assert_eq!(results[..3], [GOOD_AT, 0, 1]);
        assert_eq!(results[3..], kept);
        assert_eq!(work, [0xC0, 8]);
    }
    leaves_results(&e1(), (&[GOOD], 0), &[7], SHORT_ROW, &[7]);
    leaves_results(&e1(), (&vec![GOOD; 5_000], 4_999), &[7], SHORT_ROW, &[7]);
}

#[test]
fn a_short_row_comes_first() {
    let too_long = vec![0; 33_554_944];
    let unsound = [
        &[][..],
        &[0; 511],
        &[0; 512],
        &too_long,
        &e1_with_free_1(),
        &e1_with_map_byte(0x00),
        &l1_with_back_link_1(),
        &map_node_linked_to_itself(),
        &leaf_with(23),
    ];
    let sound = [e1(), l1(), three_levels_by_hand()];
    let wrong_forks = [GOOD + 65_536, u64::MAX];
    for image in unsound.into_iter().chain(sound.iter().map(Vec::as_slice)) {
        for lent in [0, 1, 2, 8_193].map(pattern) {
            for keys in [[GOOD, GOOD + 1], wrong_forks] {
                leaves_results(image, (&keys, 0), &lent, SHORT_ROW, &lent);
                leaves_results(image, (&keys, 1), &lent, SHORT_ROW, &lent);
            }
        }
    }
}

#[test]
fn a_wrong_length_writes_nothing() {
    let too_long = vec![0; 33_554_944];
    let two_nodes_and_a_byte = [&l1()[..], &[0]].concat();
    for image in [&[][..], &[0; 511], &[0; 513], &two_nodes_and_a_byte, &too_long] {
        for lent in [0, 1, 8_192, 8_193].map(pattern) {
            for row in [2, 5] {
                leaves_results(image, (&[GOOD, u64::MAX], row), &lent, LENGTH, &lent);
            }
        }
    }
}

#[test]
fn too_few_working_bytes_write_nothing() {
    // Sound or not, one bit a node is needed.
    for (nodes, needed) in [(1, 1), (8, 1), (9, 2), (2_049, 257), (65_536, 8_192)] {
        for image in [vec![0; 512 * nodes], empty_tree(nodes as u32)] {
            for lent in [0, needed - 1].map(pattern) {
                leaves_results(&image, (&[GOOD, u64::MAX], 3), &lent, TOO_FEW, &lent);
            }
        }
    }
    leaves_results(&l1(), (&[GOOD], 1), &[], TOO_FEW, &[]);
    leaves_results(&three_levels_by_hand(), (&[file(10)], 1), &[7], TOO_FEW, &[7]);
}

/// The fault is answered and writes no result; only one in the nodes leaves zeros.
fn assert_nothing_written(built: &Built, spoiling: &Spoiling, keys: &[u64]) {
    let mut image = built.image.clone();
    spoiling.apply(&mut image);
    let place = Place { node: spoiling.place.node, offset: spoiling.place.offset };
    let fault = Verdict { number: spoiling.number, place };
    let needed = image.len().div_ceil(8 * 512);
    let lent = pattern(needed + 3);
    let mut left = lent.clone();
    if spoiling.number != 1 {
        left[..needed].fill(0);
        let fewer = &lent[..needed - 1];
        leaves_results(&image, (keys, keys.len()), fewer, TOO_FEW, fewer);
    }
    leaves_results(&image, (keys, keys.len()), &lent, fault, &left);
    leaves_results(&image, (keys, keys.len() + 2), &lent, fault, &left);
    leaves_results(&image, (keys, keys.len() - 1), &lent, SHORT_ROW, &lent);
}

#[test]
fn every_fault_writes_nothing() {
    for built in small_samples().into_iter().chain(random_trees(600..601, 3)) {
        // Keys of all kinds, present ones among them.
        let keys: Vec<u64> = keys_worth_asking(&built).into_iter().take(12).collect();
        for spoiling in spoilings(&built) {
            assert_nothing_written(&built, &spoiling, &keys);
        }
    }
    for number in 1..=10 {
        assert!(!by_number(&samples::three_level(), number).is_empty(), "number {number}");
    }
}

#[test]
fn nodes_in_use_are_left() {
    let by_hand = [
        (e1(), &[0x80][..]),
        (l1(), &[0xC0]),
        (two_leaves(), &[0xF0]),
        (three_levels_by_hand(), &[0xFF, 0x20]),
        (index_with(35), &[0xFF, 0xFF, 0xFF, 0xFF, 0xF8]),
    ];
    for (image, bits) in by_hand {
        for keys in [&[][..], &[GOOD], &[file(10), u64::MAX, GOOD + 65_536, 0]] {
            for further in [0, 1, 300] {
                let lent = pattern(bits.len() + further);
                let mut work = lent.clone();
                let verdict = lookup_many(&image, keys, &mut vec![OLD; keys.len()], &mut work);
                assert_eq!(verdict, SOUND);
                assert_eq!(work[..bits.len()], *bits);
                assert_eq!(work[bits.len()..], lent[bits.len()..]);
            }
        }
    }
}
