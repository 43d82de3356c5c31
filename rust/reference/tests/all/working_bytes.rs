//! When the lent working bytes are too few, and what a check or a lookup leaves in them.

use images::bench::*;
use images::by_hand::three_levels_by_hand;
use images::spoil::{by_number, spoilings, Spoiling};
use images::{build, samples, Built, Key, Plan};
use reference::{check, leaf_records, lookup, needed_work, salvage};
use reference::{Answer, Place, SalvageAnswer, Verdict};

const SOUND: Verdict = at_start(0);
const LENGTH: Verdict = at_start(1);
const HEADER: Verdict = at_start(2);
const ASKED_FORK: Verdict = at_start(11);
const TOO_FEW: Verdict = at_start(16);

/// How many bytes have a bit for so many nodes.
const NEEDED: [(usize, usize); 6] = [(1, 1), (7, 1), (8, 1), (9, 2), (2_049, 257), (65_536, 8_192)];

const fn at_start(number: u32) -> Verdict {
    Verdict { number, place: Place { node: 0, offset: 0 } }
}

/// Lent bytes of which none is zero and no two neighbours are alike.
fn pattern(len: usize) -> Vec<u8> {
    (0..len).map(|at| (at % 251) as u8 + 1).collect()
}

/// Lent bytes after a call that has written the first of them.
fn with_start(lent: &[u8], start: &[u8]) -> Vec<u8> {
    [start, &lent[start.len()..]].concat()
}

/// The refusal of a lookup; what is found or absent stands in a sound image.
fn verdict_of(answer: Answer) -> Verdict {
    match answer {
        Answer::Refused { number, place } => Verdict { number, place },
        Answer::Found { .. } | Answer::Absent { .. } => SOUND,
    }
}

#[track_caller]
fn lookup_leaves(image: &[u8], asked: Key, lent: &[u8], left: &[u8]) -> Answer {
    let mut work = lent.to_vec();
    let answer = lookup(image, asked.file, asked.fork, asked.start as u16, &mut work).answer;
    assert!(work == left, "{asked:?} leaves {work:02X?}, not {left:02X?}");
    answer
}

/// A check and a lookup come to the same verdict and leave the same bytes.
#[track_caller]
fn both_give(image: &[u8], lent: &[u8], verdict: Verdict, left: &[u8]) {
    let mut work = lent.to_vec();
    assert_eq!(check(image, &mut work), verdict);
    assert!(work == left, "a check leaves {work:02X?}, not {left:02X?}");
    let answer = lookup_leaves(image, Key::new(16, 0x00, 5), lent, left);
    assert_eq!(verdict_of(answer), verdict);
}

#[track_caller]
fn both_leave_untouched(image: &[u8], lent: &[u8], verdict: Verdict) {
    both_give(image, lent, verdict, lent);
}

#[track_caller]
fn unlawful_fork_leaves_untouched(image: &[u8], lent: &[u8]) {
    for fork in [0x01, 0x7F, 0xFE] {
        let answer = lookup_leaves(image, Key::new(16, fork, 5), lent, lent);
        assert_eq!(verdict_of(answer), ASKED_FORK);
    }
}

#[test]
fn one_bit_a_node() {
    for (nodes, needed) in NEEDED {
        assert_eq!(needed_work(512 * nodes), needed);
    }
}

#[test]
fn an_asked_fork_comes_first() {
    let too_long = vec![0; 33_554_944];
    for image in [&[][..], &[0; 511], &[0; 512], &too_long, &e1(), &l1(), &e1_with_free_1()] {
        for len in [0, 1, 5] {
            unlawful_fork_leaves_untouched(image, &pattern(len));
        }
    }
}

#[test]
fn a_wrong_length_comes_before_too_few_bytes() {
    let too_long = vec![0; 33_554_944];
    let two_nodes_and_a_byte = [&l1()[..], &[0]].concat();
    for image in [&[][..], &[0; 511], &[0; 513], &two_nodes_and_a_byte, &too_long] {
        for len in [0, 1, 5, 8_192, 8_193] {
            both_leave_untouched(image, &pattern(len), LENGTH);
        }
    }
}

#[test]
fn too_few_bytes_come_before_a_wrong_header() {
    for (nodes, needed) in NEEDED {
        let zeros = vec![0; 512 * nodes];
        both_leave_untouched(&zeros, &pattern(needed - 1), TOO_FEW);
        both_give(&zeros, &pattern(needed), HEADER, &vec![0; needed]);
    }
}

#[test]
fn one_byte_fewer_than_needed() {
    for (nodes, needed) in NEEDED {
        let built = samples::largest_of(nodes);
        assert_eq!(built.image.len(), 512 * nodes);
        let fewer = [0, 1, needed / 2, needed - 1];
        for len in fewer.into_iter().filter(|&len| len < needed) {
            both_leave_untouched(&built.image, &pattern(len), TOO_FEW);
        }
        for len in [needed, needed + 1, 2 * needed] {
            let lent = pattern(len);
            both_give(&built.image, &lent, SOUND, &with_start(&lent, &map_bytes(&built.image)));
        }
    }
}

/// The first map bytes, as many as have a bit for every node: from F8 in the header, then from 0E in
/// each map node.
fn map_bytes(image: &[u8]) -> Vec<u8> {
    let link =
        |at: usize| image[at..at + 4].iter().fold(0, |link, &byte| link << 8 | byte as usize);
    let mut bytes = image[0xF8..0x1F8].to_vec();
    let mut next = link(0);
    while next != 0 {
        bytes.extend(&image[512 * next + 0x0E..512 * next + 0x1FC]);
        next = link(512 * next);
    }
    bytes.truncate(image.len().div_ceil(8 * 512));
    bytes
}

/// Whatever was lent, each call leaves the bits of the nodes in use and all that comes after.
#[track_caller]
fn sound_leaves(image: &[u8], found: &[Key], absent: &[Key], bits: &[u8]) {
    for further in [0, 1, 300] {
        let len = bits.len() + further;
        for lent in [vec![0x00; len], vec![0xFF; len], pattern(len)] {
            let left = with_start(&lent, bits);
            both_give(image, &lent, SOUND, &left);
            for &key in found {
                let answer = lookup_leaves(image, key, &lent, &left);
                assert!(matches!(answer, Answer::Found { .. }), "{key:?}");
            }
            for &key in absent {
                let answer = lookup_leaves(image, key, &lent, &left);
                assert!(matches!(answer, Answer::Absent { .. }), "{key:?}");
            }
        }
    }
}

#[test]
fn nodes_in_use_by_hand() {
    let file = |file| Key::new(file, 0x00, 0);
    let (data, resource) = (Key::new(16, 0x00, 5), Key::new(16, 0xFF, 5));
    sound_leaves(&e1(), &[], &[data, resource], &[0x80]);
    sound_leaves(&l1(), &[data], &[resource], &[0xC0]);
    sound_leaves(&two_leaves(), &[data, file(17)], &[resource, file(16), file(18)], &[0xF0]);
    // Nodes 0 to 7 and the map node 10; 8 and 9 are free.
    let (found, absent) = ([10, 40, 80].map(file), [9, 25, 90].map(file));
    sound_leaves(&three_levels_by_hand(), &found, &absent, &[0xFF, 0x20]);
    // Only the header is in use, of nine nodes and of 2,048.
    sound_leaves(&empty_tree(9), &[], &[data], &[0x80, 0x00]);
    let header_of_2048 = [&[0x80][..], &[0; 255]].concat();
    sound_leaves(&empty_tree(2_048), &[], &[data], &header_of_2048);
    // The header, the root and so many leaves: 7, 8, 9 and 37 nodes, none of them free.
    for (leaves, bits) in
        [(5, &[0xFE][..]), (6, &[0xFF]), (7, &[0xFF, 0x80]), (35, &[0xFF, 0xFF, 0xFF, 0xFF, 0xF8])]
    {
        sound_leaves(&index_with(leaves), &[file(1), file(5)], &[file(0), file(36)], bits);
    }
}

#[test]
fn nodes_in_use_of_the_largest_trees() {
    // No node is free, so all bits but the last four of 104 are set.
    let of_100 = [&[0xFF; 12][..], &[0xF0]].concat();
    for (nodes, bits) in [(100, of_100), (6_000, vec![0xFF; 750]), (65_536, vec![0xFF; 8_192])] {
        let lent = pattern(bits.len() + 1);
        both_give(&samples::largest_of(nodes).image, &lent, SOUND, &with_start(&lent, &bits));
    }
}

#[test]
fn nodes_in_use_as_the_map_has_them() {
    let random = (0..27).map(|seed| build(&Plan::random(seed, seed as usize % 9, 30)));
    let small = [samples::two_level(), samples::three_level(), samples::falling_map_nodes()];
    for built in random.chain(small).chain([samples::needed_map_nodes()]) {
        let keys: Vec<Key> = built.records.iter().map(|record| record.key).collect();
        let found: Vec<Key> = keys.first().into_iter().chain(keys.last()).copied().collect();
        // Past the last key there is none.
        let absent = Key::from_rank(keys.last().map_or(0, |key| key.rank() + 1));
        sound_leaves(&built.image, &found, &[absent], &map_bytes(&built.image));
    }
}

/// The fault leaves zeros in the needed bytes, but nothing is touched where they are too few.
fn assert_cleared(built: &Built, spoiling: &Spoiling) {
    let mut image = built.image.clone();
    spoiling.apply(&mut image);
    let needed = image.len().div_ceil(8 * 512);
    let place = Place { node: spoiling.place.node, offset: spoiling.place.offset };
    let fault = Verdict { number: spoiling.number, place };
    for further in [0, 9] {
        let lent = pattern(needed + further);
        both_give(&image, &lent, fault, &with_start(&lent, &vec![0; needed]));
    }
    both_leave_untouched(&image, &pattern(needed - 1), TOO_FEW);
    unlawful_fork_leaves_untouched(&image, &pattern(needed));
}

#[test]
fn zeros_after_every_fault_of_the_table() {
    let small = [samples::two_level(), samples::three_level(), samples::falling_map_nodes()];
    let random = (0..=8).map(|depth| build(&Plan::random(600, depth, 3)));
    for built in small.into_iter().chain(random) {
        for spoiling in spoilings(&built).iter().filter(|spoiling| spoiling.number != 1) {
            assert_cleared(&built, spoiling);
        }
    }
    for number in 2..=10 {
        assert!(!by_number(&samples::three_level(), number).is_empty(), "number {number}");
    }
}

#[test]
fn zeros_after_faults_in_a_long_image() {
    let built = samples::needed_map_nodes();
    for number in 2..=10 {
        let known = by_number(&built, number);
        for spoiling in known.iter().step_by(known.len().div_ceil(20)).chain(known.last()) {
            assert_cleared(&built, spoiling);
        }
    }
}

#[test]
fn the_same_bytes_lent_again_and_again() {
    let mut work = [0xA5; 4];
    assert_eq!(check(&three_levels_by_hand(), &mut work), SOUND);
    assert_eq!(work, [0xFF, 0x20, 0xA5, 0xA5]);
    assert_eq!(check(&l1(), &mut work), SOUND);
    assert_eq!(work, [0xC0, 0x20, 0xA5, 0xA5]);
    assert_eq!(check(&l1_with_back_link_1(), &mut work).number, 7);
    assert_eq!(work, [0x00, 0x20, 0xA5, 0xA5]);
    assert_eq!(verdict_of(lookup(&e1(), 16, 0x00, 5, &mut work).answer), SOUND);
    assert_eq!(work, [0x80, 0x20, 0xA5, 0xA5]);
    // 33 nodes need a fifth byte.
    assert_eq!(check(&empty_tree(33), &mut work), TOO_FEW);
    assert_eq!(work, [0x80, 0x20, 0xA5, 0xA5]);
    assert_eq!(check(&empty_tree(32), &mut work), SOUND);
    assert_eq!(work, [0x80, 0x00, 0x00, 0x00]);
}

#[test]
fn one_node_more_than_65536() {
    let mut image = samples::largest().image;
    assert_eq!(image.len(), 33_554_432);
    both_give(&image, &pattern(8_192), SOUND, &[0xFF; 8_192]);
    let last = leaf_records(&image).pop().expect("full leaves");
    let see = |image: &[u8]| salvage(image, last.key.file, last.key.fork, last.key.start).answer;
    let place = Place { node: last.node, offset: last.start };
    assert_eq!(see(&image), SalvageAnswer::Seen { place });

    image.resize(33_554_944, 0);
    for len in [0, 8_192, 8_193] {
        both_leave_untouched(&image, &pattern(len), LENGTH);
    }
    let Verdict { number, place } = LENGTH;
    assert_eq!(see(&image), SalvageAnswer::Refused { number, place });
}
