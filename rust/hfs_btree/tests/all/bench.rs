//! The smallest images of the paper's bench, with the paper's answers.

use hfs_btree::{
    lookup_many, needed_work, packed, salvage, Answer, KeyResult, Lookup, Place, Salvage,
    SalvageAnswer, Verdict,
};
use images::bench::{
    e1, e1_with_map_byte, index_with, l1, l1_with_back_link_1, leaf_with, two_leaves,
    two_leaves_with_levels, two_leaves_with_pointer,
};
use images::Key;

const NO_DATA: [u8; 12] = [0; 12];

/// With just the needed working bytes.
fn check(image: &[u8]) -> Verdict {
    hfs_btree::check(image, &mut vec![0xA5; needed_work(image.len())])
}

fn lookup(image: &[u8], file: u32, fork: u8, start: u16) -> Lookup {
    hfs_btree::lookup(image, file, fork, start, &mut vec![0xA5; needed_work(image.len())])
}

fn at(node: u32, offset: u32) -> Place {
    Place { node, offset }
}

fn verdict(number: u32, node: u32, offset: u32) -> Verdict {
    Verdict { number, place: at(node, offset) }
}

fn answered(answer: Answer) -> Lookup {
    Lookup { answer, compared: 0, path: [0; 8], path_len: 0, data: NO_DATA }
}

#[test]
fn verdicts() {
    assert_eq!(check(&[]), verdict(1, 0, 0));
    assert_eq!(check(&[0; 512]), verdict(2, 0, 0));
    assert_eq!(check(&vec![0; 33_554_944]), verdict(1, 0, 0));
    assert_eq!(check(&e1()), verdict(0, 0, 0));
    assert_eq!(check(&e1_with_map_byte(0xC0)), verdict(9, 0, 0xF8));
    assert_eq!(check(&l1_with_back_link_1()), verdict(7, 1, 4));
}

#[test]
fn lookups() {
    let path = [1, 0, 0, 0, 0, 0, 0, 0];
    let data = [0x00, 0x64, 0x00, 0x03, 0, 0, 0, 0, 0, 0, 0, 0];
    let in_leaf = |answer| Lookup { compared: 1, path, path_len: 1, ..answered(answer) };
    let found = Lookup { data, ..in_leaf(Answer::Found { place: at(1, 14) }) };
    assert_eq!(lookup(&l1(), 16, 0x00, 5), found);
    let absent = in_leaf(Answer::Absent { node: 1 });
    assert_eq!(lookup(&l1(), 16, 0xFF, 5), absent);
    assert_eq!(lookup(&e1(), 16, 0xFF, 5), answered(Answer::Absent { node: 0 }));
    let refused = answered(Answer::Refused { number: 11, place: at(0, 0) });
    assert_eq!(lookup(&l1(), 16, 0x01, 5), refused);
    let refused = answered(Answer::Refused { number: 7, place: at(1, 4) });
    assert_eq!(lookup(&l1_with_back_link_1(), 16, 0x00, 5), refused);
}

#[test]
fn packed_keys() {
    assert_eq!(packed(16, 0x00, 9), 268_435_465);
    assert_eq!(packed(16, 0xFF, 0), 285_147_136);
    assert_eq!(packed(17, 0x00, 0), 285_212_672);
}

#[test]
fn many_keys() {
    let left = |image: &[u8], keys: &[u64], results: &[u32], work: &[u8]| {
        let (mut results, mut work) = (results.to_vec(), work.to_vec());
        let said = lookup_many(image, keys, &mut results, &mut work);
        (said, results, work)
    };
    let keys = [packed(16, 0x00, 5), packed(16, 0xFF, 5), packed(16, 0x01, 5), 1 << 56];
    // Data stand 8 bytes behind the record's start, which is byte 14 of node 1; the fifth result stays.
    let answered = (verdict(0, 0, 0), vec![512 + 14 + 8, 0, 1, 1, 9], vec![0xC0, 0x2B]);
    assert_eq!(left(&l1(), &keys, &[9; 5], &[0x2A, 0x2B]), answered);
    // Leaf 3 has two records, leaf 2 one; a key may come twice.
    let keys = [packed(17, 0x00, 0), packed(16, 0x00, 5), packed(16, 0xFF, 0), packed(17, 0x00, 0)];
    let places = vec![3 * 512 + 34 + 8, 2 * 512 + 14 + 8, 3 * 512 + 14 + 8, 3 * 512 + 34 + 8];
    let answered = (verdict(0, 0, 0), places, vec![0xF0]);
    assert_eq!(left(&two_leaves(), &keys, &[9; 4], &[0x2A]), answered);
    // Fewer results than keys: before the length, before too few bytes and before a fault.
    for (image, work) in
        [(l1(), vec![]), (vec![0; 511], vec![0x2A]), (l1_with_back_link_1(), vec![0x2A])]
    {
        let refused = (verdict(15, 0, 0), vec![9; 3], work.clone());
        assert_eq!(left(&image, &keys, &[9; 3], &work), refused);
    }
    assert_eq!(left(&l1(), &keys, &[9; 4], &[]), (verdict(16, 0, 0), vec![9; 4], vec![]));
    let faulty = (verdict(7, 1, 4), vec![9; 4], vec![0x00]);
    assert_eq!(left(&l1_with_back_link_1(), &keys, &[9; 4], &[0x2A]), faulty);
    assert_eq!(left(&[0; 511], &[], &[], &[]), (verdict(1, 0, 0), vec![], vec![]));
    assert_eq!(left(&e1(), &[], &[], &[0x2A]), (verdict(0, 0, 0), vec![], vec![0x80]));
}

#[test]
fn results_say() {
    assert_eq!(KeyResult::from(0), KeyResult::Absent);
    assert_eq!(KeyResult::from(1), KeyResult::NoKey);
    assert_eq!(KeyResult::from(534), KeyResult::Found { data_at: 534 });
}

#[test]
fn two_levels() {
    assert_eq!(check(&two_leaves()), verdict(0, 0, 0));
    let found = Lookup {
        answer: Answer::Found { place: at(3, 34) },
        // The later of two keys, in the root and in leaf 3.
        compared: 1 + 1,
        path: [1, 3, 0, 0, 0, 0, 0, 0],
        path_len: 2,
        data: [0, 105, 0, 1, 0, 0, 0, 0, 0, 0, 0, 0],
    };
    assert_eq!(lookup(&two_leaves(), 17, 0x00, 0), found);
    let below_every_pointer = Lookup {
        compared: 2,
        path: [1, 0, 0, 0, 0, 0, 0, 0],
        path_len: 1,
        ..answered(Answer::Absent { node: 1 })
    };
    assert_eq!(lookup(&two_leaves(), 16, 0x00, 4), below_every_pointer);
    let from_the_root = two_leaves_with_levels(1, 2);
    assert_eq!(check(&from_the_root), verdict(5, 1, 0));
    let refused = answered(Answer::Refused { number: 5, place: at(1, 0) });
    assert_eq!(lookup(&from_the_root, 17, 0x00, 0), refused);
}

#[test]
fn keys_compared() {
    let compared = |image: &[u8], file| lookup(image, file, 0x00, 0).compared;
    // Of 22 keys below all of them: 22, 11, 5, 2, 1 are left; above all: 22, 10, 4, 1.
    assert_eq!(compared(&leaf_with(22), 0), 5);
    assert_eq!(compared(&leaf_with(22), 23), 4);
    // Of 35 pointers below all of them: 35, 17, 8, 4, 2, 1 are left, and no leaf is read.
    assert_eq!(compared(&index_with(35), 0), 6);
    // Above all: 35, 17, 8, 3, 1, and the one key of the last leaf.
    assert_eq!(compared(&index_with(35), 36), 5 + 1);
}

#[test]
fn pointers_that_do_not_match() {
    // In order and within all bounds, but below the first key of leaf 3.
    let below = two_leaves_with_pointer(1, Key::new(16, 0x00, 6));
    assert_eq!(check(&below), verdict(6, 3, 14));
    let refused = answered(Answer::Refused { number: 6, place: at(3, 14) });
    assert_eq!(lookup(&below, 16, 0xFF, 0), refused);
    let first_below = two_leaves_with_pointer(0, Key::new(16, 0x00, 4));
    assert_eq!(check(&first_below), verdict(6, 2, 14));
}

#[test]
fn salvages() {
    let data = [0x00, 0x64, 0x00, 0x03, 0, 0, 0, 0, 0, 0, 0, 0];
    let seen = Salvage { answer: SalvageAnswer::Seen { place: at(1, 14) }, data };
    assert_eq!(salvage(&l1_with_back_link_1(), 16, 0x00, 5), seen);
    let not_seen = Salvage { answer: SalvageAnswer::NotSeen, data: NO_DATA };
    assert_eq!(salvage(&l1(), 16, 0xFF, 5), not_seen);
    let answer = SalvageAnswer::Refused { number: 11, place: at(0, 0) };
    assert_eq!(salvage(&l1(), 16, 0x01, 5), Salvage { answer, data: NO_DATA });
}

#[test]
fn working_bytes() {
    let left = |image: &[u8], lent: &[u8]| {
        let mut work = lent.to_vec();
        let number = hfs_btree::check(image, &mut work).number;
        (number, work)
    };
    // A bit for each of two nodes, the top bit first; the second byte is not needed.
    assert_eq!(left(&l1(), &[0x2A, 0x2B]), (0, vec![0xC0, 0x2B]));
    assert_eq!(left(&l1_with_back_link_1(), &[0x2A, 0x2B]), (7, vec![0x00, 0x2B]));
    assert_eq!(left(&[0; 512], &[0x2A, 0x2B]), (2, vec![0x00, 0x2B]));
    assert_eq!(left(&l1(), &[]), (16, vec![]));
    assert_eq!(left(&[0; 511], &[]), (1, vec![]));
    assert_eq!(left(&[0; 511], &[0x2A]), (1, vec![0x2A]));
    // 65 nodes need nine bytes.
    let nodes_65 = images::bench::empty_tree(65);
    assert_eq!(left(&nodes_65, &[0x2A; 8]), (16, vec![0x2A; 8]));
    assert_eq!(left(&nodes_65, &[0x2A; 9]).1, [0x80, 0, 0, 0, 0, 0, 0, 0, 0]);
    let mut work = [0x2A, 0x2B];
    let refused = hfs_btree::lookup(&l1(), 16, 0x01, 5, &mut work).answer;
    assert_eq!((refused, work), (Answer::Refused { number: 11, place: at(0, 0) }, [0x2A, 0x2B]));
    let absent = hfs_btree::lookup(&l1(), 16, 0xFF, 5, &mut work).answer;
    assert_eq!((absent, work), (Answer::Absent { node: 1 }, [0xC0, 0x2B]));
}

#[test]
fn places() {
    // The root field of the header, the child number of the root's second record.
    assert_eq!(check(&changed(l1(), 19, 2)), verdict(4, 0, 16));
    assert_eq!(check(&changed(two_leaves(), 512 + 14 + 12 + 11, 2)), verdict(4, 1, 34));
    // Leaf 3's second key made its first one: the second of the two is at fault.
    let mut equal = two_leaves();
    equal.copy_within(3 * 512 + 14..3 * 512 + 22, 3 * 512 + 34);
    assert_eq!(check(&equal), verdict(6, 3, 34));
    // A forward link is at 0, a back link at 4.
    assert_eq!(check(&changed(two_leaves(), 2 * 512 + 3, 0)), verdict(7, 2, 0));
    assert_eq!(check(&changed(two_leaves(), 3 * 512 + 7, 0)), verdict(7, 3, 4));
    // The last byte of the header's map record.
    assert_eq!(check(&changed(e1(), 0x1F7, 0x01)), verdict(9, 0, 0x1F7));
}

fn changed(mut image: Vec<u8>, at: usize, byte: u8) -> Vec<u8> {
    image[at] = byte;
    image
}
