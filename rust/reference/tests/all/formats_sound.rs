//! Sound trees in every format: what was built is found, and nothing else.

use crate::formats::{check, just_enough, keys_worth_asking, lookup, named, sizes, SOUND};
use images::{build, samples, Built, Format, Key, Plan};
use reference::editions;
use reference::{Answer, Lookup, Place};

/// The node of the next level under the last pointer that is not above the asked key.
fn child_under(built: &Built, level: usize, position: usize, asked: Key) -> Option<usize> {
    let group = built.levels[level].groups[position].clone();
    let pointers = &built.levels[level + 1].pointers;
    group.rev().find(|&child| pointers[child] <= asked)
}

/// The positions of the nodes on the path, one a level.
fn path_by_pointers(built: &Built, asked: Key) -> Vec<usize> {
    let mut path = Vec::new();
    let mut next = Some(0).filter(|_| built.depth() > 0);
    while let Some(position) = next {
        let level = path.len();
        path.push(position);
        next = if path.len() < built.depth() {
            child_under(built, level, position, asked)
        } else {
            None
        };
    }
    path
}

fn keys_of(built: &Built, level: usize, position: usize) -> Vec<Key> {
    let group = built.levels[level].groups[position].clone();
    match built.levels.get(level + 1) {
        Some(below) => below.pointers[group].to_vec(),
        None => built.records[group].iter().map(|record| record.key).collect(),
    }
}

/// Takes away both ends until one is left, or two, of which the later counts.
fn middle_of(left: &[Key]) -> Option<Key> {
    match left {
        [] => None,
        [middle] | [_, middle] => Some(*middle),
        [_, inner @ .., _] => middle_of(inner),
    }
}

/// How many keys are compared until none is left, striking out those ruled out.
fn compared_by_striking_out(mut left: Vec<Key>, asked: Key) -> u32 {
    let binary_digits = usize::BITS - left.len().leading_zeros();
    let mut compared = 0;
    while let Some(middle) = middle_of(&left) {
        compared += 1;
        let goes_on_after = middle <= asked;
        left.retain(|&key| if goes_on_after { key > middle } else { key < middle });
    }
    assert!(compared <= binary_digits);
    compared
}

/// What the builder says stands under the key.
fn expected(built: &Built, asked: Key) -> Lookup {
    let positions = path_by_pointers(built, asked);
    let mut path = [0; 8];
    let mut compared = 0;
    for (level, &position) in positions.iter().enumerate() {
        path[level] = built.levels[level].numbers[position];
        compared += compared_by_striking_out(keys_of(built, level, position), asked);
    }
    let node = positions.len().checked_sub(1).map_or(0, |last| path[last]);
    let found = built.records.binary_search_by_key(&asked, |record| record.key).ok();
    let (answer, data) = match found {
        None => (Answer::Absent { node }, None),
        Some(record) => {
            let leaf = &built.levels[built.depth() - 1].groups[positions[positions.len() - 1]];
            let (key_size, record_size, _) = sizes(built.format);
            let offset = 14 + record_size * (record - leaf.start);
            let at = node as usize * built.format.node_size + offset;
            let place = Place { node, offset: offset as u32 };
            (Answer::Found { place }, Some(at + key_size..at + record_size))
        }
    };
    Lookup { answer, compared, path, path_len: positions.len(), data }
}

fn assert_right(built: &Built, asked: Key) {
    let got = lookup(built.format, &built.image, asked);
    assert_eq!(got, expected(built, asked), "{:?} {asked:?}", built.format);
    if let Some(data) = got.data {
        let record = built.records.iter().find(|record| record.key == asked);
        let record = record.expect("only what was built is found");
        assert_eq!(built.image[data], record.data, "{:?} {asked:?}", built.format);
    }
}

/// The bits that a sound image leaves in the lent bytes: the nodes in use, top bit first.
fn assert_leaves_nodes_in_use(built: &Built) {
    let mut bits = vec![0; (built.total() as usize).div_ceil(8)];
    let tree = built.levels.iter().flat_map(|level| &level.numbers);
    for &number in tree.chain(&built.map_chain).chain([&0]) {
        bits[number as usize / 8] |= 0x80 >> (number % 8);
    }
    let (edition, node_size) = named(built.format);
    let mut work = just_enough(built.format, &built.image);
    work.extend([0x5A; 3]);
    assert_eq!(editions::check(edition, node_size, &built.image, &mut work), SOUND);
    assert_eq!(work, [&bits[..], &[0x5A; 3]].concat(), "{:?}", built.format);
}

#[test]
fn random_trees_of_every_depth_are_sound() {
    for format in Format::all() {
        for depth in 0..=8 {
            for seed in 700..706 {
                let built = build(&Plan::random_in(format, seed, depth, 9));
                assert_eq!(check(format, &built.image), SOUND, "{format:?} {depth} {seed}");
                assert_leaves_nodes_in_use(&built);
            }
        }
    }
}

#[test]
fn every_key_and_gap_of_random_trees() {
    for format in Format::all() {
        for depth in 0..=4 {
            let built = build(&Plan { noise: true, ..Plan::random_in(format, 710, depth, 3) });
            for asked in keys_worth_asking(&built) {
                assert_right(&built, asked);
            }
        }
    }
}

#[test]
fn every_key_and_gap_of_full_leaves() {
    for format in Format::all() {
        let built = build(&Plan { shuffled: true, ..Plan::tidy_in(format, 711, &[1, 3]) });
        for asked in keys_worth_asking(&built) {
            assert_right(&built, asked);
        }
    }
}

/// HFS keys have 16 bits of a start block; any higher one lies between two lawful keys.
#[test]
fn start_blocks_that_hfs_has_not() {
    for depth in 0..=4 {
        let built = build(&Plan::random(713, depth, 6));
        for record in &built.records {
            let key = record.key;
            for start in [65_536, 65_536 + key.start, u32::MAX] {
                assert_right(&built, Key { start, ..key });
            }
        }
    }
}

#[test]
fn samples_of_hfs_plus() {
    for built in [samples::two_level_plus(), samples::three_level_plus()] {
        assert_leaves_nodes_in_use(&built);
        for asked in keys_worth_asking(&built) {
            assert_right(&built, asked);
        }
    }
    assert_eq!((samples::two_level_plus().total(), samples::three_level_plus().total()), (20, 40));
}

/// The header has 30,720 bits, so no map node is needed.
///
/// - 100: the header leaves 99; 98 leaves need one index node, as up to 226 do.
/// - 1,000: the header leaves 999; 993 leaves need 5 + 1 index nodes.
#[test]
fn largest_trees_at_4096_have_the_levels_by_hand() {
    for (nodes, level_sizes) in [(1, &[][..]), (2, &[1]), (100, &[1, 98]), (1_000, &[1, 5, 993])] {
        let built = samples::largest_plus(nodes);
        let sizes: Vec<usize> = built.levels.iter().map(|level| level.numbers.len()).collect();
        assert_eq!(sizes, level_sizes, "{nodes}");
        assert_eq!((built.total() as usize, built.free.len()), (nodes, 0));
        assert_eq!(built.records.len(), 52 * level_sizes.last().unwrap_or(&0));
        assert_leaves_nodes_in_use(&built);
        for record in built.records.iter().step_by(997) {
            assert_right(&built, record.key);
        }
    }
}

#[test]
fn pads_of_pointers_and_first_keys_differ() {
    for format in Format::all().skip(1) {
        let built = build(&Plan { noise: true, ..Plan::tidy_in(format, 712, &[1, 6]) });
        let root = built.levels[0].numbers[0] as usize * format.node_size;
        let differs = |record: usize| {
            let leaf = built.levels[1].numbers[record] as usize * format.node_size;
            built.image[root + 14 + 16 * record + 3] != built.image[leaf + 14 + 3]
        };
        assert!((0..6).any(differs), "{format:?}");
        assert_eq!(check(format, &built.image), SOUND);
    }
}
