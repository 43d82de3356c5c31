//! Lengths, map bits, working bytes and node sizes at their limits, in every format.

use crate::formats::{check, lookup, named, refused, salvage, salvage_refused, verdict};
use crate::formats::{BySize, BY_SIZE, SOUND};
use images::bench_plus::{empty_tree, l1, l1_in};
use images::node::{put32, put_node, write_map, HEADER_MAP_AT};
use images::{build, Format, Key, Plan, PLUS_NODE_SIZES};
use reference::{editions, Answer, SalvageAnswer};

const ASKED: Key = Key::new(16, 0x00, 5);

#[test]
fn lengths_that_are_no_whole_nodes() {
    for format in Format::all() {
        let node_size = format.node_size;
        for len in [0, 1, node_size - 1, node_size + 1, 2 * node_size - 1] {
            assert_eq!(check(format, &vec![0; len]), verdict(1, 0, 0), "{node_size} {len}");
            // A salvage takes any length.
            let seen = salvage(format, &vec![0; len], ASKED).answer;
            assert_eq!(seen, SalvageAnswer::NotSeen);
        }
        assert_eq!(check(format, &vec![0; node_size]), verdict(2, 0, 0), "{node_size}");
    }
}

/// An empty tree with a chain of map nodes from node 1 on.
fn empty_with_map_nodes(node_size: usize, total: u32, map_nodes: u32) -> Vec<u8> {
    let mut image = empty_tree(node_size, total);
    for number in 1..=map_nodes {
        put32(&mut image, if number == 1 { 0 } else { (number as usize - 1) * node_size }, number);
        let mut node = vec![0; node_size];
        write_map(Format::plus(node_size), &mut node, 0);
        put_node(&mut image, number, &node);
        image[HEADER_MAP_AT + number as usize / 8] |= 0x80 >> (number % 8);
    }
    put32(&mut image, 40, total - 1 - map_nodes);
    image
}

#[test]
fn one_node_more_than_65536() {
    // The header has 2,048 bits and a map node 3,936: 16 of them are 512 short.
    let format = Format::plus(512);
    let mut image = empty_with_map_nodes(512, 65_536, 17);
    assert_eq!((image.len(), check(format, &image)), (33_554_432, SOUND));
    let absent = lookup(format, &image, ASKED).answer;
    assert_eq!(absent, Answer::Absent { node: 0 });
    // The last node there can be is salvaged as well.
    image[65_535 * 512..].copy_from_slice(&l1()[512..]);
    let seen = salvage(format, &image, ASKED);
    assert_eq!(seen.data, Some(65_535 * 512 + 26..65_535 * 512 + 90));
    image.push(0);
    assert_eq!(salvage(format, &image, ASKED), salvage_refused(1));
    image.resize(65_537 * 512, 0);
    assert_eq!(check(format, &image), verdict(1, 0, 0));
    assert_eq!(lookup(format, &image, ASKED), refused(verdict(1, 0, 0)));
    assert_eq!(salvage(format, &image, ASKED), salvage_refused(1));
}

#[test]
fn sixteen_map_nodes_are_too_few_for_65536() {
    let image = empty_with_map_nodes(512, 65_536, 16);
    assert_eq!(check(Format::plus(512), &image), verdict(3, 16, 0));
}

#[test]
fn larger_nodes_make_longer_images() {
    // One node more than 33,554,432 bytes hold, which is the limit for nodes of 512 only.
    for node_size in [1_024, 4_096, 32_768] {
        let format = Format::plus(node_size);
        let total = (33_554_432 / node_size) as u32 + 1;
        // At 1,024 the header has 6,144 bits and a map node 8,032: four of them are enough.
        let map_nodes = if node_size == 1_024 { 4 } else { 0 };
        let mut image = empty_with_map_nodes(node_size, total, map_nodes);
        assert_eq!(check(format, &image), SOUND, "{node_size}");
        let last = (total as usize - 1) * node_size;
        image[last..].copy_from_slice(&l1_in(node_size)[node_size..]);
        assert_eq!(salvage(format, &image, ASKED).data, Some(last + 26..last + 90));
    }
}

#[test]
fn a_map_node_is_needed_from_one_node_more_than_bits() {
    // From 4,096 on, an image with more nodes than the header has bits is over 100 megabytes long.
    for &BySize { node_size, header_map_bytes, .. } in &BY_SIZE[..3] {
        let format = Format::plus(node_size);
        let bits = 8 * header_map_bytes as u32;
        assert_eq!(check(format, &empty_tree(node_size, bits)), SOUND, "{node_size}");
        let short = empty_tree(node_size, bits + 1);
        assert_eq!(check(format, &short), verdict(3, 0, 0), "{node_size}");
        let enough = empty_with_map_nodes(node_size, bits + 1, 1);
        assert_eq!(check(format, &enough), SOUND, "{node_size}");
    }
}

#[test]
fn a_second_map_node_is_needed_from_one_node_more_than_bits() {
    for &BySize { node_size, header_map_bytes, map_node_bytes, .. } in &BY_SIZE[..2] {
        let format = Format::plus(node_size);
        let bits = 8 * (header_map_bytes + map_node_bytes) as u32;
        assert_eq!(check(format, &empty_with_map_nodes(node_size, bits, 1)), SOUND);
        let short = empty_with_map_nodes(node_size, bits + 1, 1);
        assert_eq!(check(format, &short), verdict(3, 1, 0), "{node_size}");
        assert_eq!(check(format, &empty_with_map_nodes(node_size, bits + 1, 2)), SOUND);
    }
}

#[test]
fn needed_map_nodes_of_built_trees() {
    for (node_size, free_nodes, map_nodes) in
        [(512, 9_000, 2), (1_024, 9_000, 1), (2_048, 15_000, 1)]
    {
        let format = Format::plus(node_size);
        let plan = Plan { free_nodes, old_garbage: false, ..Plan::untidy_in(format, 730, &[1, 5]) };
        let built = build(&plan);
        assert_eq!(built.map_chain.len(), map_nodes, "{node_size}");
        assert_eq!(check(format, &built.image), SOUND, "{node_size}");
    }
}

#[test]
fn too_few_working_bytes() {
    for format in Format::all() {
        let (edition, node_size) = named(format);
        let built = build(&Plan { free_nodes: 12, ..Plan::tidy_in(format, 731, &[1, 4]) });
        // 18 nodes need three bytes.
        assert_eq!(built.total(), 18);
        let image = &built.image;
        for len in 0..3 {
            let mut work = vec![0x5A; len];
            let verdict_of_check = editions::check(edition, node_size, image, &mut work);
            assert_eq!(verdict_of_check, verdict(16, 0, 0));
            let got = editions::lookup(edition, node_size, image, 16, 0x00, 5, &mut work);
            assert_eq!(got, refused(verdict(16, 0, 0)));
            // A wrong fork and a wrong length come before.
            let got = editions::lookup(edition, node_size, image, 16, 0x01, 5, &mut work);
            assert_eq!(got, refused(verdict(11, 0, 0)));
            let got = editions::check(edition, node_size, &image[1..], &mut work);
            assert_eq!(got, verdict(1, 0, 0));
            assert_eq!(work, vec![0x5A; len]);
        }
        let mut work = [0x5A; 3];
        assert_eq!(editions::check(edition, node_size, image, &mut work), SOUND);
        // The header, the root and four leaves.
        assert_eq!(work, [0b1111_1100, 0, 0]);
    }
}

#[test]
fn another_node_size_meant() {
    for node_size in PLUS_NODE_SIZES {
        // Sixty-four nodes of 512 bytes are one of 32,768, so that any length is right.
        let built =
            build(&Plan { free_nodes: 58, ..Plan::tidy_in(Format::plus(node_size), 732, &[1, 4]) });
        assert_eq!(built.total(), 64);
        for meant in PLUS_NODE_SIZES {
            let expected = if meant == node_size { SOUND } else { verdict(2, 0, 0) };
            assert_eq!(check(Format::plus(meant), &built.image), expected, "{node_size} {meant}");
        }
        assert_eq!(check(Format::HFS, &built.image), verdict(2, 0, 0), "{node_size}");
    }
    let hfs = build(&Plan { free_nodes: 58, ..Plan::tidy(733, &[1, 4]) });
    for meant in PLUS_NODE_SIZES {
        assert_eq!(check(Format::plus(meant), &hfs.image), verdict(2, 0, 0), "{meant}");
    }
}
