//! Many keys after one check: results by hand, by the leaf list and by single lookups.

use crate::rows::*;
use images::bench::*;
use images::by_hand::three_levels_by_hand;
use images::{samples, Built, Key, Rng};
use reference::{leaf_records, lookup, lookup_many, needed_work};
use reference::{Answer, LeafRecord};

/// The results for keys of a sound image, for which just enough is lent.
#[track_caller]
fn results_for(image: &[u8], keys: &[u64]) -> Vec<u32> {
    let mut results = vec![OLD; keys.len()];
    let mut work = pattern(needed_work(image.len()));
    assert_eq!(lookup_many(image, keys, &mut results, &mut work), SOUND);
    results
}

/// The result that says what a single lookup says.
fn by_single_lookup(image: &[u8], asked: u64) -> u32 {
    if asked >= TWO_TO_THE_56 {
        return 1;
    }
    let (number, fork, start) = (asked / 16_777_216, asked / 65_536 % 256, asked % 65_536);
    let mut work = vec![0; needed_work(image.len())];
    let single = lookup(image, number as u32, fork as u8, start as u16, &mut work);
    match (single.answer, single.data) {
        (Answer::Found { .. }, Some(data)) => data.start as u32,
        (Answer::Absent { .. }, None) => 0,
        (Answer::Refused { number: 11, .. }, None) => 1,
        other => panic!("{asked}: {other:?}"),
    }
}

/// Where the leaf list has the data of each of its records: after the 8 bytes of the key.
fn places_by_list(list: &[LeafRecord]) -> Vec<u32> {
    list.iter().map(|listed| listed.node * 512 + listed.start + 8).collect()
}

#[test]
fn keys_of_l1() {
    let resource_fork = 285_147_141;
    let fork_01 = 268_500_997;
    let too_high = [TWO_TO_THE_56, TWO_TO_THE_56 + GOOD, u64::MAX];
    let keys = [&[GOOD, resource_fork, fork_01], &too_high[..]].concat();
    assert_eq!(results_for(&l1(), &keys), [GOOD_AT, 0, 1, 1, 1, 1]);
    assert_eq!(results_for(&l1(), &[GOOD - 1, GOOD, GOOD + 1]), [0, GOOD_AT, 0]);
    // The same low bits and other file numbers, up to the highest.
    let files = [0, 15, 17, 272, 65_552, u32::MAX].map(|file| packed(Key::new(file, 0x00, 5)));
    assert_eq!(results_for(&l1(), &files), [0; 6]);
}

#[test]
fn every_fork_byte() {
    for fork in 0x00..=0xFF {
        let expected = match fork {
            0x00 => GOOD_AT,
            0xFF => 0,
            _ => 1,
        };
        assert_eq!(results_for(&l1(), &[packed(Key::new(16, fork, 5))]), [expected], "{fork:02X}");
    }
}

#[test]
fn from_2_to_the_56() {
    // File number and start block are the highest; the fork byte of the last is FE.
    let ends = [TWO_TO_THE_56 - 1, TWO_TO_THE_56 - 65_536, TWO_TO_THE_56 - 65_537];
    assert_eq!(results_for(&l1(), &ends), [0, 0, 1]);
    for bit in 56..64 {
        let high = 1 << bit;
        assert_eq!(results_for(&l1(), &[high, high + GOOD, high - 1 + high]), [1; 3], "bit {bit}");
    }
}

#[test]
fn the_lowest_and_the_highest_key() {
    let with_key = |key: Key| {
        let mut image = l1();
        image[526..534].copy_from_slice(&key.bytes());
        image
    };
    let keys = [0, GOOD, TWO_TO_THE_56 - 1, TWO_TO_THE_56, u64::MAX];
    let lowest = with_key(Key::new(0, 0x00, 0));
    assert_eq!(results_for(&lowest, &keys), [GOOD_AT, 0, 0, 1, 1]);
    let highest = with_key(Key::new(u32::MAX, 0xFF, 65_535));
    assert_eq!(results_for(&highest, &keys), [0, 0, GOOD_AT, 1, 1]);
}

#[test]
fn keys_of_an_empty_tree() {
    let fork_80 = packed(Key::new(16, 0x80, 5));
    let keys = [0, GOOD, TWO_TO_THE_56 - 1, fork_80, TWO_TO_THE_56, TWO_TO_THE_56 + GOOD, u64::MAX];
    for image in [e1(), empty_tree(9), empty_tree(2_048)] {
        assert_eq!(results_for(&image, &keys), [0, 0, 0, 1, 1, 1, 1]);
    }
}

#[test]
fn keys_of_two_leaves() {
    // Leaf 2 starts at 1,024 and leaf 3 at 1,536; the data of records 0 and 1 come 22 and 42 later.
    let by_hand = [
        (Key::new(17, 0x00, 0), 1_578),
        (Key::new(16, 0xFF, 0), 1_558),
        (Key::new(16, 0x00, 5), 1_046),
        (Key::new(16, 0x00, 4), 0),
        (Key::new(16, 0x00, 9), 0),
        (Key::new(16, 0xFF, 1), 0),
        (Key::new(17, 0x00, 1), 0),
        (Key::new(17, 0x11, 0), 1),
    ];
    let keys = by_hand.map(|(key, _)| packed(key));
    assert_eq!(results_for(&two_leaves(), &keys), by_hand.map(|(_, result)| result));
}

#[test]
fn keys_of_three_levels() {
    let image = three_levels_by_hand();
    let present = [10, 20, 30, 40, 50, 60, 70, 80].map(file);
    // Leaves 4 to 7 start at 2,048, 2,560, 3,072 and 3,584.
    let places = [2_070, 2_090, 2_582, 2_602, 3_094, 3_114, 3_606, 3_626];
    assert_eq!(results_for(&image, &present), places);
    // Below the root, within leaves, between leaves and index nodes, above all.
    let absent = [0, 9, 15, 25, 29, 35, 45, 49, 55, 65, 75, 81, u32::MAX].map(file);
    assert_eq!(results_for(&image, &absent), [0; 13]);
}

#[test]
fn nodes_of_every_size() {
    for count in 1..=22 {
        let keys: Vec<u64> = (0..=count + 1).map(file).collect();
        let places = (0..count).map(|record| 512 + 14 + 20 * record + 8);
        let expected: Vec<u32> = [0].into_iter().chain(places).chain([0]).collect();
        assert_eq!(results_for(&leaf_with(count as usize), &keys), expected);
    }
    for count in 1..=35 {
        let keys: Vec<u64> = (0..=count + 1).map(file).collect();
        let places = (2..count + 2).map(|leaf| 512 * leaf + 14 + 8);
        let expected: Vec<u32> = [0].into_iter().chain(places).chain([0]).collect();
        assert_eq!(results_for(&index_with(count as usize), &keys), expected);
    }
}

#[track_caller]
fn assert_as_single_lookups(image: &[u8], keys: &[u64]) {
    let expected: Vec<u32> = keys.iter().map(|&asked| by_single_lookup(image, asked)).collect();
    assert_eq!(results_for(image, keys), expected);
}

#[test]
fn as_single_lookups_in_random_trees() {
    for (built, seed) in random_trees(400..408, 12).zip(0..) {
        let mut keys = keys_worth_asking(&built);
        Rng::new(seed).shuffle(&mut keys);
        assert_as_single_lookups(&built.image, &keys);
    }
}

#[test]
fn as_single_lookups_in_the_samples() {
    for built in small_samples() {
        assert_as_single_lookups(&built.image, &keys_worth_asking(&built));
    }
}

#[test]
fn as_single_lookups_in_the_largest() {
    // Every single lookup checks all nodes, so not many are asked of the most nodes.
    for (built, count) in [(samples::largest_of(6_000), 300), (samples::largest(), 25)] {
        let all = keys_worth_asking(&built);
        let mut rng = Rng::new(13);
        let keys: Vec<u64> = (0..count).map(|_| all[rng.index(all.len())]).collect();
        assert_as_single_lookups(&built.image, &keys);
    }
}

/// Every key of the list is found where the list has it, and no key that it has not.
fn assert_as_listed(built: &Built) {
    let list = leaf_records(&built.image);
    let of_list = |LeafRecord { key, .. }: &LeafRecord| {
        packed(Key::new(key.file, key.fork, key.start.into()))
    };
    let keys: Vec<u64> = list.iter().map(of_list).collect();
    assert_eq!(keys, built.records.iter().map(|record| packed(record.key)).collect::<Vec<_>>());
    let results = results_for(&built.image, &keys);
    assert_eq!(results, places_by_list(&list));
    for ((&result, listed), record) in results.iter().zip(&list).zip(&built.records) {
        let start = result as usize;
        assert_eq!(built.image[start..start + 12], listed.data);
        assert_eq!(listed.data[..], record.data);
    }
    let after = |record: &images::Record| packed(Key::from_rank(record.key.rank() + 1));
    let mut gaps: Vec<u64> = built.records.iter().map(after).collect();
    gaps.retain(|gap| keys.binary_search(gap).is_err());
    assert_eq!(results_for(&built.image, &gaps), vec![0; gaps.len()]);
}

#[test]
fn as_listed() {
    random_trees(420..430, 40).chain(small_samples()).for_each(|built| assert_as_listed(&built));
    assert_as_listed(&samples::three_level_large());
    assert_as_listed(&samples::needed_map_nodes());
    assert_as_listed(&samples::largest());
}

#[test]
fn the_same_key_more_than_once() {
    let fork_01 = GOOD + 65_536;
    let keys = [GOOD, GOOD, fork_01, GOOD + 1, fork_01, GOOD, GOOD + 1];
    assert_eq!(results_for(&l1(), &keys), [GOOD_AT, GOOD_AT, 1, 0, 1, GOOD_AT, 0]);
    let image = three_levels_by_hand();
    let keys = [80, 10, 80, 25, 10, 80].map(file);
    assert_eq!(results_for(&image, &keys), [3_626, 2_070, 3_626, 0, 2_070, 3_626]);
    assert_eq!(results_for(&image, &[file(60); 1_000]), [3_114; 1_000]);
}

#[test]
fn keys_in_any_order() {
    let built = samples::three_level();
    let list = leaf_records(&built.image);
    let keys = built.records.iter().map(|record| packed(record.key));
    let mut pairs: Vec<(u64, u32)> = keys.zip(places_by_list(&list)).collect();
    let assert_right = |pairs: &[(u64, u32)]| {
        let (keys, places): (Vec<u64>, Vec<u32>) = pairs.iter().copied().unzip();
        assert_eq!(results_for(&built.image, &keys), places);
    };
    assert_right(&pairs);
    pairs.reverse();
    assert_right(&pairs);
    let mut rng = Rng::new(5);
    for _ in 0..20 {
        rng.shuffle(&mut pairs);
        assert_right(&pairs);
        assert_right(&pairs[..7]);
    }
}

#[test]
fn nothing_lent_before_matters() {
    let built = samples::two_level();
    let keys = keys_worth_asking(&built);
    let by_single = |&asked: &u64| by_single_lookup(&built.image, asked);
    let expected: Vec<u32> = keys.iter().map(by_single).collect();
    for old in [0, 1, 2, 534, u32::MAX] {
        for byte in [0x00, 0x55, 0xFF] {
            let mut results = vec![old; keys.len()];
            // 64 nodes need 8 bytes.
            let mut work = [byte; 8];
            assert_eq!(lookup_many(&built.image, &keys, &mut results, &mut work), SOUND);
            assert_eq!(results, expected);
        }
    }
}
