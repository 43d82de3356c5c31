//! Every image of the paper's section "Images on the bench", and one of two levels, with the paper's
//! answer; how many keys a lookup compares is worked out by hand.

use crate::lent::{check, lookup};
use images::bench::*;
use reference::{Answer, Key, Lookup, Place, Verdict};

fn verdict(number: u32, node: u32, offset: u32) -> Verdict {
    Verdict { number, place: Place { node, offset } }
}

fn refused(number: u32, node: u32, offset: u32) -> Lookup {
    let answer = Answer::Refused { number, place: Place { node, offset } };
    Lookup { answer, compared: 0, path: [0; 8], path_len: 0, data: None }
}

fn found_at(node: u32, offset: u32) -> Answer {
    Answer::Found { place: Place { node, offset } }
}

fn word(image: &[u8], at: usize) -> u16 {
    u16::from_be_bytes([image[at], image[at + 1]])
}

#[test]
fn lengths() {
    assert_eq!(check(&[]), verdict(1, 0, 0));
    assert_eq!(check(&[0; 511]), verdict(1, 0, 0));
    assert_eq!(check(&[0; 512]), verdict(2, 0, 0));
    assert_eq!(check(&vec![0; 33_554_944]), verdict(1, 0, 0));
}

#[test]
fn e1_is_sound_and_empty() {
    assert_eq!(check(&e1()), verdict(0, 0, 0));
    let answer = Answer::Absent { node: 0 };
    let absent = Lookup { answer, compared: 0, path: [0; 8], path_len: 0, data: None };
    let keys = [(0, 0x00, 0), (16, 0x00, 5), (16, 0xFF, 5), (u32::MAX, 0xFF, u16::MAX)];
    for (file, fork, start) in keys {
        assert_eq!(lookup(&e1(), file, fork, start), absent);
    }
}

#[test]
fn e1_spoiled() {
    assert_eq!(check(&e1_with_map_byte(0x00)), verdict(9, 0, 0xF8));
    assert_eq!(check(&e1_with_map_byte(0xC0)), verdict(9, 0, 0xF8));
    assert_eq!(check(&e1_with_free_1()), verdict(10, 0, 0));
    assert_eq!(lookup(&e1_with_free_1(), 16, 0x00, 5), refused(10, 0, 0));
}

#[test]
fn l1_bytes_are_the_papers() {
    let image = l1();
    let mut header = [0; 512];
    header[8..12].copy_from_slice(&[0x01, 0x00, 0x00, 0x03]);
    header[14..32].copy_from_slice(&[0, 1, 0, 0, 0, 1, 0, 0, 0, 1, 0, 0, 0, 1, 0, 0, 0, 1]);
    header[32..44].copy_from_slice(&[0x02, 0x00, 0x00, 0x07, 0, 0, 0, 2, 0, 0, 0, 0]);
    header[0xF8] = 0xC0;
    header[504..].copy_from_slice(&[0x01, 0xF8, 0x00, 0xF8, 0x00, 0x78, 0x00, 0x0E]);
    let mut leaf = [0; 512];
    leaf[8..12].copy_from_slice(&[0xFF, 0x01, 0x00, 0x01]);
    leaf[14..22].copy_from_slice(&[0x07, 0x00, 0x00, 0x00, 0x00, 0x10, 0x00, 0x05]);
    leaf[22..26].copy_from_slice(&[0x00, 0x64, 0x00, 0x03]);
    leaf[508..].copy_from_slice(&[0x00, 0x22, 0x00, 0x0E]);
    assert_eq!(image[..512], header);
    assert_eq!(image[512..], leaf);
}

#[test]
fn l1_lookups() {
    let image = l1();
    let path = [1, 0, 0, 0, 0, 0, 0, 0];
    assert_eq!(check(&image), verdict(0, 0, 0));
    let found = Lookup {
        answer: found_at(1, 14),
        compared: 1,
        path,
        path_len: 1,
        // The data follow the 14 bytes of node 1 and the 8 of the key.
        data: Some(534..546),
    };
    assert_eq!(lookup(&image, 16, 0x00, 5), found);
    let answer = Answer::Absent { node: 1 };
    let absent = Lookup { answer, compared: 1, path, path_len: 1, data: None };
    assert_eq!(lookup(&image, 16, 0xFF, 5), absent);
    assert_eq!(lookup(&image, 16, 0x00, 4), absent);
    assert_eq!(lookup(&image, 16, 0x01, 5), refused(11, 0, 0));
}

#[test]
fn l1_with_a_wrong_back_link() {
    assert_eq!(check(&l1_with_back_link_1()), verdict(7, 1, 4));
    assert_eq!(lookup(&l1_with_back_link_1(), 16, 0x00, 5), refused(7, 1, 4));
    // The asked fork is tested before the image.
    assert_eq!(lookup(&l1_with_back_link_1(), 16, 0x01, 5), refused(11, 0, 0));
}

/// The bytes of a node: its first 12, its records, its last words.
fn node_of(start: [u8; 12], records: &[&[u8]], ends: &[u8]) -> [u8; 512] {
    let mut node = [0; 512];
    node[..12].copy_from_slice(&start);
    let records = records.concat();
    node[14..14 + records.len()].copy_from_slice(&records);
    node[512 - ends.len()..].copy_from_slice(ends);
    node
}

#[test]
fn two_leaves_bytes() {
    let image = two_leaves();
    let first = [0x07, 0x00, 0, 0, 0, 0x10, 0, 5];
    let second = [0x07, 0xFF, 0, 0, 0, 0x10, 0, 0];
    let third = [0x07, 0x00, 0, 0, 0, 0x11, 0, 0];
    let pair = |block: u8, count: u8| [0, block, 0, count, 0, 0, 0, 0, 0, 0, 0, 0];
    let root = node_of(
        [0, 0, 0, 0, 0, 0, 0, 0, 0x00, 2, 0, 2],
        &[&first, &[0, 0, 0, 2], &second, &[0, 0, 0, 3]],
        &[0x00, 0x26, 0x00, 0x1A, 0x00, 0x0E],
    );
    let left = node_of(
        [0, 0, 0, 3, 0, 0, 0, 0, 0xFF, 1, 0, 1],
        &[&first, &pair(100, 3)],
        &[0x00, 0x22, 0x00, 0x0E],
    );
    let right = node_of(
        [0, 0, 0, 0, 0, 0, 0, 2, 0xFF, 1, 0, 2],
        &[&second, &pair(103, 2), &third, &pair(105, 1)],
        &[0x00, 0x36, 0x00, 0x22, 0x00, 0x0E],
    );
    assert_eq!(image[14..32], [0, 2, 0, 0, 0, 1, 0, 0, 0, 3, 0, 0, 0, 2, 0, 0, 0, 3]);
    assert_eq!((image[0xF8], &image[36..44]), (0xF0, &[0, 0, 0, 4, 0, 0, 0, 0][..]));
    assert_eq!(image[512..], [root, left, right].concat());
}

#[test]
fn two_leaves_lookups() {
    let image = two_leaves();
    assert_eq!(check(&image), verdict(0, 0, 0));
    let says = |answer, compared, path: [u32; 2], path_len, data| {
        let path = [path[0], path[1], 0, 0, 0, 0, 0, 0];
        Lookup { answer, compared, path, path_len, data }
    };
    // Past three nodes, the 14 bytes of node 3, its first record and the key of the second.
    let last = says(found_at(3, 34), 1 + 1, [1, 3], 2, Some(1578..1590));
    assert_eq!(lookup(&image, 17, 0x00, 0), last);
    // The second key of leaf 3 is above, so the first is compared as well.
    let middle = says(found_at(3, 14), 1 + 2, [1, 3], 2, Some(1558..1570));
    assert_eq!(lookup(&image, 16, 0xFF, 0), middle);
    // The second pointer is above, so the first is compared as well.
    let first = says(found_at(2, 14), 2 + 1, [1, 2], 2, Some(1046..1058));
    assert_eq!(lookup(&image, 16, 0x00, 5), first);
    let below_every_pointer = says(Answer::Absent { node: 1 }, 2, [1, 0], 1, None);
    assert_eq!(lookup(&image, 16, 0x00, 4), below_every_pointer);
    let between = says(Answer::Absent { node: 2 }, 2 + 1, [1, 2], 2, None);
    assert_eq!(lookup(&image, 16, 0x00, 9), between);
    let within_leaf_3 = says(Answer::Absent { node: 3 }, 1 + 2, [1, 3], 2, None);
    assert_eq!(lookup(&image, 16, 0xFF, 1), within_leaf_3);
    let above_all = says(Answer::Absent { node: 3 }, 1 + 1, [1, 3], 2, None);
    assert_eq!(lookup(&image, 17, 0x00, 1), above_all);
}

#[test]
fn two_leaves_with_other_levels() {
    assert_eq!(two_leaves_with_levels(2, 1), two_leaves());
    let from_the_root = two_leaves_with_levels(1, 2);
    assert_eq!(check(&from_the_root), verdict(5, 1, 0));
    assert_eq!(lookup(&from_the_root, 17, 0x00, 0), refused(5, 1, 0));
    assert_eq!(check(&two_leaves_with_levels(1, 0)), verdict(5, 1, 0));
    assert_eq!(check(&two_leaves_with_levels(2, 0)), verdict(5, 2, 0));
    assert_eq!(check(&two_leaves_with_levels(2, 2)), verdict(5, 2, 0));
}

#[test]
fn two_leaves_with_other_pointers() {
    let with_pointer = |record, file, fork, start| {
        two_leaves_with_pointer(record, images::Key::new(file, fork, start))
    };
    assert_eq!(with_pointer(0, 16, 0x00, 5), two_leaves());
    assert_eq!(with_pointer(1, 16, 0xFF, 0), two_leaves());
    // In order and within all bounds, but below the first key of leaf 3.
    let below = with_pointer(1, 16, 0x00, 6);
    assert_eq!(check(&below), verdict(6, 3, 14));
    assert_eq!(lookup(&below, 16, 0xFF, 0), refused(6, 3, 14));
    let first_below = with_pointer(0, 16, 0x00, 4);
    assert_eq!(check(&first_below), verdict(6, 2, 14));
    assert_eq!(lookup(&first_below, 16, 0x00, 5), refused(6, 2, 14));
    let at_last_key = with_pointer(1, 17, 0x00, 0);
    assert_eq!(check(&at_last_key), verdict(6, 3, 14));
    assert_eq!(lookup(&at_last_key, 17, 0x00, 0), refused(6, 3, 14));
    // Equal to the pointer before it, so the root's second record is out of order.
    assert_eq!(check(&with_pointer(1, 16, 0x00, 5)), verdict(6, 1, 26));
}

#[test]
fn the_first_key_of_a_root_is_free() {
    let keys = [(0, 0x00, 0), (0, 0x00, 1), (16, 0x00, 4), (u32::MAX, 0xFF, u16::MAX)];
    for (file, fork, start) in keys {
        let mut image = l1();
        image[526..534].copy_from_slice(&images::Key::new(file, fork, start.into()).bytes());
        assert_eq!(check(&image), verdict(0, 0, 0));
        let found = lookup(&image, file, fork, start).answer;
        assert_eq!(found, found_at(1, 14));
    }
    // As the first key of a root over leaves, and so of leaf 2 as well.
    for (file, fork, start) in [(0, 0x00, 0), (0, 0x00, 1), (16, 0x00, 4)] {
        let key = images::Key::new(file, fork, u32::from(start));
        let mut image = two_leaves_with_pointer(0, key);
        image[1038..1046].copy_from_slice(&key.bytes());
        assert_eq!(check(&image), verdict(0, 0, 0));
        let found = lookup(&image, file, fork, start).answer;
        assert_eq!(found, found_at(2, 14));
    }
}

#[test]
fn key_order() {
    let key = |file, fork, start| Key { file, fork, start };
    let low = key(16, 0x00, 9);
    let middle = key(16, 0xFF, 0);
    let high = key(17, 0x00, 0);
    assert_eq!(low.packed(), 268_435_465);
    assert_eq!(middle.packed(), 285_147_136);
    assert_eq!(high.packed(), 285_212_672);
    assert_eq!(low.compare(middle), -1);
    assert_eq!(middle.compare(high), -1);
    assert_eq!(high.compare(low), 1);
    assert_eq!(middle.compare(middle), 0);
}

#[test]
fn most_leaf_records() {
    let full = leaf_with(22);
    assert_eq!(word(&full, 1024 - 2 - 2 * 22), 0x01C6);
    assert_eq!(check(&full), verdict(0, 0, 0));
    assert_eq!(check(&leaf_with(23)), verdict(5, 1, 0));
}

#[test]
fn most_index_records() {
    let full = index_with(35);
    assert_eq!(word(&full, 1024 - 2 - 2 * 35), 0x01B2);
    assert_eq!(check(&full), verdict(0, 0, 0));
    assert_eq!(check(&index_with(36)), verdict(5, 1, 0));
}

/// Asks for the file's key and for one between it and the next, which halve alike.
#[track_caller]
fn compares(image: &[u8], file: u32, compared: usize) {
    for start in [0, 1] {
        let got = lookup(image, file, 0x00, start).compared;
        assert_eq!(got as usize, compared, "file {file} start {start}");
    }
}

#[test]
fn halving_in_a_full_leaf() {
    let image = leaf_with(22);
    // Each asked file with those whose keys are compared; at most 22, 11, 5, 2, 1 are left.
    let by_hand: [(u32, &[u32]); 11] = [
        (0, &[12, 6, 3, 2, 1]),
        (1, &[12, 6, 3, 2, 1]),
        (2, &[12, 6, 3, 2]),
        (5, &[12, 6, 3, 5]),
        (6, &[12, 6, 9, 8, 7]),
        (10, &[12, 6, 9, 11, 10]),
        (11, &[12, 6, 9, 11]),
        (12, &[12, 18, 15, 14, 13]),
        (18, &[12, 18, 21, 20, 19]),
        (22, &[12, 18, 21, 22]),
        (23, &[12, 18, 21, 22]),
    ];
    for (file, compared) in by_hand {
        compares(&image, file, compared.len());
    }
}

#[test]
fn halving_in_a_full_index_node() {
    let image = index_with(35);
    // Each asked file with those whose pointers are compared; at most 35, 17, 8, 4, 2, 1 are left.
    let by_hand: [(u32, &[u32]); 9] = [
        (1, &[18, 9, 5, 3, 2, 1]),
        (2, &[18, 9, 5, 3, 2]),
        (3, &[18, 9, 5, 3, 4]),
        (9, &[18, 9, 14, 12, 11, 10]),
        (17, &[18, 9, 14, 16, 17]),
        (18, &[18, 27, 23, 21, 20, 19]),
        (27, &[18, 27, 32, 30, 29, 28]),
        (35, &[18, 27, 32, 34, 35]),
        (36, &[18, 27, 32, 34, 35]),
    ];
    for (file, compared) in by_hand {
        // The leaf adds its only key.
        compares(&image, file, compared.len() + 1);
    }
    // No pointer is low enough, so that no leaf is read.
    compares(&image, 0, [18, 9, 5, 3, 2, 1].len());
}

#[track_caller]
fn assert_few(compared: u32, records: usize) {
    assert!((1..=6).contains(&compared), "{compared} of {records}");
    assert!(1 << (compared - 1) <= records, "{compared} of {records}");
}

#[test]
fn at_most_six_keys_of_a_leaf_are_compared() {
    for count in 1..=22 {
        let image = leaf_with(count);
        for file in 0..=count as u32 + 1 {
            assert_few(lookup(&image, file, 0x00, 0).compared, count);
        }
    }
}

#[test]
fn at_most_six_keys_of_an_index_node_are_compared() {
    for count in 1..=35 {
        let image = index_with(count);
        for file in 0..=count as u32 + 1 {
            let got = lookup(&image, file, 0x00, 0);
            // A leaf below the root has one record, and so adds one key.
            let in_leaf = got.path_len as u32 - 1;
            assert_few(got.compared - in_leaf, count);
        }
    }
}

#[test]
fn map_node_needed_from_2049_nodes() {
    assert_eq!(check(&empty_tree(2_048)), verdict(0, 0, 0));
    assert_eq!(check(&empty_tree(2_049)), verdict(3, 0, 0));
}

#[test]
fn map_node_linked_to_itself_is_at_fault() {
    assert_eq!(check(&map_node_linked_to_itself()), verdict(3, 1, 0));
}
