//! Small HFS Plus images with the answers that the request's words have for them.

use crate::formats::{check, lookup, refused, verdict, word, BySize, BY_SIZE, SOUND};
use images::bench_plus::*;
use images::by_hand::{file_key, three_levels_by_hand_in};
use images::{Format, Key, PLUS_NODE_SIZES};
use reference::{Answer, Lookup, Place};

const IN_512: Format = Format::plus(512);

fn found_at(node: u32, offset: u32) -> Answer {
    Answer::Found { place: Place { node, offset } }
}

#[test]
fn e1_bytes_are_those_of_the_request() {
    let mut header = [0; 512];
    header[8..12].copy_from_slice(&[0x01, 0x00, 0x00, 0x03]);
    header[32..44].copy_from_slice(&[0x02, 0x00, 0x00, 0x0A, 0, 0, 0, 1, 0, 0, 0, 0]);
    header[0xF8] = 0x80;
    header[504..].copy_from_slice(&[0x01, 0xF8, 0x00, 0xF8, 0x00, 0x78, 0x00, 0x0E]);
    assert_eq!(e1(), header);
}

#[test]
fn e1_is_sound_and_empty() {
    assert_eq!(check(IN_512, &e1()), SOUND);
    let answer = Answer::Absent { node: 0 };
    let absent = Lookup { answer, compared: 0, path: [0; 8], path_len: 0, data: None };
    for (file, fork, start) in [(0, 0x00, 0), (16, 0x00, 5), (u32::MAX, 0xFF, u32::MAX)] {
        assert_eq!(lookup(IN_512, &e1(), Key::new(file, fork, start)), absent);
    }
    assert_eq!(check(IN_512, &e1_with_map_byte(0x00)), verdict(9, 0, 0xF8));
    assert_eq!(check(IN_512, &e1_with_map_byte(0xC0)), verdict(9, 0, 0xF8));
    assert_eq!(check(IN_512, &e1_with_free_1()), verdict(10, 0, 0));
}

#[test]
fn l1_bytes_are_those_of_the_request() {
    let mut header = [0; 512];
    header[8..12].copy_from_slice(&[0x01, 0x00, 0x00, 0x03]);
    header[14..32].copy_from_slice(&[0, 1, 0, 0, 0, 1, 0, 0, 0, 1, 0, 0, 0, 1, 0, 0, 0, 1]);
    header[32..44].copy_from_slice(&[0x02, 0x00, 0x00, 0x0A, 0, 0, 0, 2, 0, 0, 0, 0]);
    header[0xF8] = 0xC0;
    header[504..].copy_from_slice(&[0x01, 0xF8, 0x00, 0xF8, 0x00, 0x78, 0x00, 0x0E]);
    let mut leaf = [0; 512];
    leaf[8..12].copy_from_slice(&[0xFF, 0x01, 0x00, 0x01]);
    leaf[14..26].copy_from_slice(&[0x00, 0x0A, 0x00, 0x00, 0, 0, 0, 0x10, 0, 0, 0, 5]);
    leaf[26..34].copy_from_slice(&[0, 0, 0, 100, 0, 0, 0, 3]);
    // One record of 76 bytes, so the free space starts at 90.
    leaf[508..].copy_from_slice(&[0x00, 0x5A, 0x00, 0x0E]);
    assert_eq!(l1(), [header, leaf].concat());
}

#[test]
fn l1_lookups() {
    for node_size in PLUS_NODE_SIZES {
        let (format, image) = (Format::plus(node_size), l1_in(node_size));
        assert_eq!(check(format, &image), SOUND);
        let says = |answer, data| Lookup {
            answer,
            compared: 1,
            path: [1, 0, 0, 0, 0, 0, 0, 0],
            path_len: 1,
            data,
        };
        // The data follow the 14 bytes of node 1 and the 12 of the key.
        let found = says(found_at(1, 14), Some(node_size + 26..node_size + 90));
        assert_eq!(lookup(format, &image, Key::new(16, 0x00, 5)), found);
        let absent = says(Answer::Absent { node: 1 }, None);
        for (file, fork, start) in [(16, 0xFF, 5), (16, 0x00, 4), (16, 0x00, 65_541), (17, 0, 5)] {
            assert_eq!(lookup(format, &image, Key::new(file, fork, start)), absent);
        }
        let wrong_fork = lookup(format, &image, Key::new(16, 0x01, 5));
        assert_eq!(wrong_fork, refused(verdict(11, 0, 0)));
    }
    assert_eq!(l1_in(512), l1());
}

#[test]
fn l1_spoiled() {
    assert_eq!(check(IN_512, &l1_with_back_link_1()), verdict(7, 1, 4));
    for pad in [0x01, 0x7F, 0xFF] {
        assert_eq!(check(IN_512, &l1_with_pad(pad)), SOUND);
        let found = lookup(IN_512, &l1_with_pad(pad), Key::new(16, 0x00, 5));
        assert_eq!(found.answer, found_at(1, 14));
    }
    // Bytes of node 1: the key's length at 14, its fork at 16 and its pad at 17.
    let with = |at: usize, byte: u8| {
        let mut image = l1();
        image[512 + at] = byte;
        check(IN_512, &image)
    };
    assert_eq!(with(14, 0x01), verdict(5, 1, 0));
    assert_eq!(with(15, 0x07), verdict(5, 1, 0));
    assert_eq!(with(15, 0x0B), verdict(5, 1, 0));
    assert_eq!(with(16, 0x01), verdict(5, 1, 0));
    assert_eq!(with(16, 0xFF), SOUND);
}

#[test]
fn a_whole_start_block_tells_keys_apart() {
    // Only the high words of the two start blocks differ: 5 and 65,541.
    let mut image = leaf_with(512, 2);
    for (record, start) in [(0, [0, 0, 0, 5]), (1, [0, 1, 0, 5])] {
        let at = 512 + 14 + 76 * record;
        image[at + 4..at + 8].copy_from_slice(&[0, 0, 0, 16]);
        image[at + 8..at + 12].copy_from_slice(&start);
    }
    assert_eq!(check(IN_512, &image), SOUND);
    let found = |start| lookup(IN_512, &image, Key::new(16, 0x00, start)).answer;
    assert_eq!((found(5), found(65_541)), (found_at(1, 14), found_at(1, 90)));
    assert_eq!(found(131_077), Answer::Absent { node: 1 });
    image[512 + 14 + 76 + 9] = 0;
    assert_eq!(check(IN_512, &image), verdict(6, 1, 90));
}

#[test]
fn as_many_leaf_records_as_fit_and_one_more() {
    for &BySize { node_size, most_leaf_records: most, .. } in &BY_SIZE {
        let format = Format::plus(node_size);
        let full = leaf_with(node_size, most);
        assert_eq!(word(&full, 2 * node_size - 2 * (most + 1)) as usize, 14 + 76 * most);
        assert_eq!(check(format, &full), SOUND, "{node_size}");
        assert_eq!(check(format, &leaf_with(node_size, most + 1)), verdict(5, 1, 0), "{node_size}");
        let last = lookup(format, &full, file_key(most as u32));
        assert_eq!(last.answer, found_at(1, 14 + 76 * (most as u32 - 1)));
        let data_at = node_size + 14 + 76 * (most - 1) + 12;
        assert_eq!(last.data, Some(data_at..data_at + 64));
    }
}

#[test]
fn as_many_index_records_as_fit_and_one_more() {
    for &BySize { node_size, most_index_records: most, .. } in &BY_SIZE {
        let format = Format::plus(node_size);
        let full = index_with(node_size, most);
        assert_eq!(word(&full, 2 * node_size - 2 * (most + 1)) as usize, 14 + 16 * most);
        assert_eq!(check(format, &full), SOUND, "{node_size}");
        let last = lookup(format, &full, file_key(most as u32));
        assert_eq!(last.answer, found_at(most as u32 + 1, 14));
        assert_eq!(last.path, [1, most as u32 + 1, 0, 0, 0, 0, 0, 0]);
        drop(full);
        let too_many = index_with(node_size, most + 1);
        assert_eq!(check(format, &too_many), verdict(5, 1, 0), "{node_size}");
    }
}

#[test]
fn two_full_leaves_at_4096() {
    let (format, image) = (Format::plus(4_096), two_full_leaves());
    assert_eq!((image.len(), check(format, &image)), (4 * 4_096, SOUND));
    // Of two pointers the second is compared first; of 52 records those of 27, 40, 47, 50 and 52.
    let last = lookup(format, &image, file_key(104));
    let (path, data_at) = ([1, 3, 0, 0, 0, 0, 0, 0], 3 * 4_096 + 14 + 76 * 51 + 12);
    let data = Some(data_at..data_at + 64);
    let answer = found_at(3, 14 + 76 * 51);
    assert_eq!(last, Lookup { answer, compared: 1 + 5, path, path_len: 2, data });
    // Below every key: both pointers, and no leaf is read.
    let path = [1, 0, 0, 0, 0, 0, 0, 0];
    let answer = Answer::Absent { node: 1 };
    let below = Lookup { answer, compared: 2, path, path_len: 1, data: None };
    assert_eq!(lookup(format, &image, file_key(0)), below);
    // Between the last key of one leaf and the first of the other.
    let between = lookup(format, &image, Key::new(52, 0xFF, u32::MAX));
    assert_eq!(between.answer, Answer::Absent { node: 2 });
}

#[test]
fn the_tree_by_hand_in_every_format() {
    for format in Format::all() {
        let image = three_levels_by_hand_in(format);
        assert_eq!(check(format, &image), SOUND, "{format:?}");
        for (file, path) in [(10, [1, 2, 4]), (40, [1, 2, 5]), (60, [1, 3, 6]), (80, [1, 3, 7])] {
            let got = lookup(format, &image, file_key(file));
            assert_eq!(got.path[..got.path_len], path, "{format:?} {file}");
            let data = got.data.expect("the file is there");
            assert!(image[data].iter().all(|&byte| u32::from(byte) == file));
        }
    }
}

#[test]
fn a_map_node_linked_to_itself_is_at_fault() {
    for node_size in PLUS_NODE_SIZES {
        let image = map_node_linked_to_itself(node_size);
        assert_eq!(check(Format::plus(node_size), &image), verdict(3, 1, 0));
    }
}
