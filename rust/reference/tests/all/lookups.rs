//! Lookups of every key and of gaps, against a linear search of the leaf list.

use crate::lent::lookup;
use images::{bench, build, samples, Built, Key, Plan, Record, Rng};
use reference::{leaf_records, Answer, LeafRecord, Lookup, Place};

fn long(image: &[u8], at: usize) -> u32 {
    image[at..at + 4].iter().fold(0, |value, &byte| value << 8 | u32::from(byte))
}

fn word(image: &[u8], at: usize) -> u32 {
    u32::from(image[at]) << 8 | u32::from(image[at + 1])
}

fn key_at(image: &[u8], at: usize) -> Key {
    Key::new(long(image, at + 2), image[at + 1], word(image, at + 6))
}

fn record_at(image: &[u8], node: usize, record: usize) -> usize {
    node + word(image, node + 510 - 2 * record) as usize
}

fn keys_of(image: &[u8], number: u32) -> Vec<Key> {
    let node = number as usize * 512;
    let records = 0..word(image, node + 10) as usize;
    records.map(|record| key_at(image, record_at(image, node, record))).collect()
}

/// The search path by the paper's words, one record after the other.
fn path_by_scan(image: &[u8], asked: Key) -> Vec<u32> {
    let mut path = Vec::new();
    let mut next = (word(image, 14) > 0).then(|| long(image, 16));
    while let Some(number) = next {
        path.push(number);
        let node = number as usize * 512;
        next = None;
        if image[node + 8] == 0xFF {
            break;
        }
        for record in 0..word(image, node + 10) as usize {
            let at = record_at(image, node, record);
            if key_at(image, at) <= asked {
                next = Some(long(image, at + 8));
            }
        }
    }
    path
}

/// Takes away both ends until one is left, or two, of which the later counts.
fn middle_of(left: &[Key]) -> Option<Key> {
    match left {
        [] => None,
        [middle] | [_, middle] => Some(*middle),
        [_, inner @ .., _] => middle_of(inner),
    }
}

/// How many keys of a node are compared until none is left, striking out those ruled out.
fn compared_by_striking_out(image: &[u8], number: u32, asked: Key) -> u32 {
    let mut left = keys_of(image, number);
    let mut compared = 0;
    while let Some(middle) = middle_of(&left) {
        compared += 1;
        let goes_on_after = middle <= asked;
        left.retain(|&key| if goes_on_after { key > middle } else { key < middle });
    }
    compared
}

fn expected(image: &[u8], list: &[LeafRecord], asked: Key) -> Lookup {
    let scanned = path_by_scan(image, asked);
    let mut path = [0; 8];
    path[..scanned.len()].copy_from_slice(&scanned);
    let has_key = |record: &&LeafRecord| {
        (record.key.file, record.key.fork, u32::from(record.key.start))
            == (asked.file, asked.fork, asked.start)
    };
    let found = list.iter().find(has_key);
    let answer = match found {
        Some(&LeafRecord { node, record, .. }) => {
            Answer::Found { place: Place { node, offset: 14 + 20 * record } }
        }
        None => Answer::Absent { node: scanned.last().copied().unwrap_or(0) },
    };
    let data = found.map(|found| {
        let start = found.node as usize * 512 + 14 + found.record as usize * 20 + 8;
        start..start + 12
    });
    let compared = scanned.iter().map(|&node| compared_by_striking_out(image, node, asked)).sum();
    Lookup { answer, compared, path, path_len: scanned.len(), data }
}

fn assert_right(image: &[u8], list: &[LeafRecord], asked: Key) {
    let got = lookup(image, asked.file, asked.fork, asked.start as u16);
    assert_eq!(got, expected(image, list, asked), "{asked:?}");
    if let (Answer::Found { place }, Some(data)) = (got.answer, got.data) {
        let stands_there = |listed: &&LeafRecord| {
            let LeafRecord { node, start: offset, .. } = **listed;
            Place { node, offset } == place
        };
        let listed = list.iter().find(stands_there);
        assert_eq!(listed.map(|listed| &listed.data[..]), Some(&image[data]));
    }
}

fn assert_few_compared(image: &[u8], asked: Key) {
    let got = lookup(image, asked.file, asked.fork, asked.start as u16);
    let path = &got.path[..got.path_len];
    assert!(got.compared <= 6 * path.len() as u32, "{asked:?}");
    let mut compared_in_all = 0;
    for &number in path {
        let compared = compared_by_striking_out(image, number, asked);
        assert!(1 << (compared - 1) <= keys_of(image, number).len(), "{asked:?} in {number}");
        compared_in_all += compared;
    }
    assert_eq!(got.compared, compared_in_all, "{asked:?}");
}

/// Every leaf key, pointer keys among them, its lawful neighbours and the ends of the range.
fn keys_worth_asking(built: &Built) -> Vec<Key> {
    let mut asked = vec![Key::new(0, 0x00, 0), Key::new(u32::MAX, 0xFF, 65_535)];
    for &Record { key, .. } in &built.records {
        let rank = key.rank();
        asked.extend([key, Key::from_rank(rank + 1), Key::from_rank(rank.saturating_sub(1))]);
    }
    asked.sort_unstable();
    asked.dedup();
    asked
}

fn small_samples() -> [Built; 3] {
    [samples::two_level(), samples::three_level(), samples::longest_listed()]
}

#[test]
fn every_key_and_gap_of_nodes_of_every_size() {
    let leaves = (1..=22).map(|count| (count, bench::leaf_with(count)));
    let indexes = (1..=35).map(|count| (count, bench::index_with(count)));
    for (count, image) in leaves.chain(indexes) {
        let list = leaf_records(&image);
        for file in 0..=count as u32 + 1 {
            assert_right(&image, &list, Key::new(file, 0x00, 0));
            assert_right(&image, &list, Key::new(file, 0x00, 1));
        }
    }
}

#[test]
fn every_key_and_gap_of_random_trees() {
    for depth in 0..=8 {
        for seed in 300..308 {
            let built = build(&Plan::random(seed, depth, 12));
            let list = leaf_records(&built.image);
            for asked in keys_worth_asking(&built) {
                assert_right(&built.image, &list, asked);
            }
        }
    }
}

#[test]
fn every_key_and_gap_of_the_samples() {
    for built in small_samples() {
        let list = leaf_records(&built.image);
        for asked in keys_worth_asking(&built) {
            assert_right(&built.image, &list, asked);
        }
    }
}

#[test]
fn few_keys_of_the_samples_are_compared() {
    for built in small_samples() {
        for asked in keys_worth_asking(&built) {
            assert_few_compared(&built.image, asked);
        }
    }
}

#[test]
fn some_keys_of_the_largest() {
    // Every lookup checks all nodes, so not many are asked of the most nodes.
    for (built, count) in [(samples::largest_of(6_000), 500), (samples::largest(), 25)] {
        let list = leaf_records(&built.image);
        let keys = keys_worth_asking(&built);
        let mut rng = Rng::new(12);
        for _ in 0..count {
            let asked = keys[rng.index(keys.len())];
            assert_right(&built.image, &list, asked);
            assert_few_compared(&built.image, asked);
        }
    }
}

#[test]
fn unlawful_forks_are_refused_before_anything_else() {
    let built = samples::two_level();
    let answer = Answer::Refused { number: 11, place: Place { node: 0, offset: 0 } };
    let refused = Lookup { answer, compared: 0, path: [0; 8], path_len: 0, data: None };
    for fork in 0x01..=0xFE {
        for image in [&built.image[..], &[]] {
            assert_eq!(lookup(image, 1, fork, 0), refused);
        }
    }
}
