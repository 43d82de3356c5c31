//! Fresh trees: the bytes that the request's words have for small ones, and that all are sound and hold
//! their row.

use crate::fresh::{numbered, written};
use crate::lent::{check, lookup};
use images::bench::{e1, empty_tree, l1, leaf_with};
use images::rows::{laid_down, least_nodes, longest, map_nodes, most_records, Row, SPREADS};
use images::{Key, Record, Rng};
use reference::{leaf_records, listing, needed_work, Answer, Place, Verdict};

fn word(image: &[u8], at: usize) -> u32 {
    u32::from(image[at]) * 256 + u32::from(image[at + 1])
}

fn long(image: &[u8], at: usize) -> u32 {
    word(image, at) * 65_536 + word(image, at + 2)
}

/// Forward link, back link, kind, level and record count of a node.
fn descriptor(image: &[u8], node: usize) -> (u32, u32, u8, u8, u32) {
    let at = node * 512;
    let (forward, back) = (long(image, at), long(image, at + 4));
    (forward, back, image[at + 8], image[at + 9], word(image, at + 10))
}

/// Depth, root, leaf records, first leaf, last leaf, total and free.
fn header(image: &[u8]) -> [u32; 7] {
    let [root, records, first, last] = [16, 20, 24, 28].map(|at| long(image, at));
    assert_eq!((word(image, 32), word(image, 34)), (512, 7));
    [word(image, 14), root, records, first, last, long(image, 36), long(image, 40)]
}

/// The file and the child that a record of an index node has.
fn pointer(image: &[u8], node: usize, record: usize) -> (u32, u32) {
    let at = node * 512 + 14 + 12 * record;
    assert_eq!((&image[at..at + 2], word(image, at + 6)), (&[7, 0][..], 0));
    (long(image, at + 2), long(image, at + 8))
}

/// Sound, with the nodes in use at the start, and the leaf records are the row again.
#[track_caller]
fn assert_holds(image: &[u8], row: &Row) {
    let mut work = vec![0xA5; needed_work(image.len())];
    assert_eq!(reference::check(image, &mut work), Verdict::SOUND);
    let used = image.len() / 512 - long(image, 40) as usize;
    let in_use = |node: usize| work[node / 8] >> (7 - node % 8) & 1 == 1;
    assert!((0..image.len() / 512).all(|node| in_use(node) == (node < used)));
    let listed = leaf_records(image);
    let bytes = listed.iter().flat_map(|listed| {
        let key = Key::new(listed.key.file, listed.key.fork, listed.key.start.into());
        [&key.bytes()[..], &listed.data].concat()
    });
    assert!(bytes.eq(row.bytes.iter().copied()), "the leaf records are another row");
}

/// Every key is found where its record belongs, 22 to a leaf.
#[track_caller]
fn assert_finds_all(image: &[u8], row: &Row) {
    let first_leaf = 1 + map_nodes(image.len() / 512);
    for (index, Record { key, data }) in row.records.iter().enumerate() {
        let found = lookup(image, key.file, key.fork, key.start as u16);
        let (node, offset) = ((first_leaf + index / 22) as u32, 14 + 20 * (index % 22) as u32);
        assert_eq!(found.answer, Answer::Found { place: Place { node, offset } });
        assert_eq!(image[found.data.expect("found has data")], data[..]);
    }
}

#[test]
fn no_records_in_one_node_are_e1() {
    assert!(written(&[], 1) == e1());
}

#[test]
fn no_records_in_more_nodes() {
    for nodes in [2, 7, 8, 9, 2_048] {
        assert!(written(&[], nodes) == empty_tree(nodes as u32), "{nodes} nodes");
    }
}

#[test]
fn one_record_in_two_nodes_is_l1() {
    let mut row = vec![7, 0x00, 0, 0, 0, 16, 0, 5, 0x00, 0x64, 0x00, 0x03];
    row.resize(20, 0);
    assert!(written(&row, 2) == l1());
    let paper = "verdict 0 0 0\n\
                 file fork start s1 n1 s2 n2 s3 n3\n\
                 16 0 5 100 3 0 0 0 0\n\
                 records 1\n";
    assert_eq!(listing(&written(&row, 2)), paper);
}

#[test]
fn a_full_leaf() {
    let row = Row::of(
        (1..=22).map(|file| Record { key: Key::new(file, 0, 0), data: vec![0; 12] }).collect(),
    );
    assert!(written(&row.bytes, 2) == leaf_with(22));
    let image = written(&numbered(22).bytes, 3);
    assert_eq!(header(&image), [1, 1, 22, 1, 1, 3, 1]);
    assert_eq!(descriptor(&image, 1), (0, 0, 0xFF, 1, 22));
    // The free offset; from there to the 23 offset words and in node 2 there are zeros.
    assert_eq!(word(&image, 2 * 512 - 46), 0x01C6);
    assert!(image[512 + 0x1C6..2 * 512 - 46]
        .iter()
        .chain(&image[2 * 512..])
        .all(|&byte| byte == 0));
    // Nodes 0 and 1.
    assert_eq!(image[0xF8..0xFA], [0xC0, 0]);
}

#[test]
fn one_record_more_than_a_leaf_has() {
    let image = written(&numbered(23).bytes, 4);
    assert_eq!(header(&image), [2, 3, 23, 1, 2, 4, 0]);
    assert_eq!(descriptor(&image, 0), (0, 0, 0x01, 0, 3));
    assert_eq!(descriptor(&image, 1), (2, 0, 0xFF, 1, 22));
    assert_eq!(descriptor(&image, 2), (0, 1, 0xFF, 1, 1));
    assert_eq!(descriptor(&image, 3), (0, 0, 0x00, 2, 2));
    assert_eq!((pointer(&image, 3, 0), pointer(&image, 3, 1)), ((1, 1), (23, 2)));
    assert_eq!(image[0xF8..0xFA], [0xF0, 0]);
}

#[test]
fn a_full_root() {
    // 35 leaves, nodes 1 to 35, under node 36.
    let image = written(&numbered(770).bytes, 40);
    assert_eq!(header(&image), [2, 36, 770, 1, 35, 40, 3]);
    assert_eq!(descriptor(&image, 35), (0, 34, 0xFF, 1, 22));
    assert_eq!(descriptor(&image, 36), (0, 0, 0x00, 2, 35));
    // The free offset before 35 others.
    assert_eq!(word(&image, 37 * 512 - 72), 0x01B2);
    for record in 0..35 {
        let expected = (1 + 22 * record as u32, 1 + record as u32);
        assert_eq!(pointer(&image, 36, record), expected);
    }
    assert_eq!(image[0xF8..0xFE], [0xFF, 0xFF, 0xFF, 0xFF, 0xF8, 0]);
}

#[test]
fn one_record_more_than_two_levels_have() {
    // 36 leaves, nodes 1 to 36, under nodes 37 and 38, under node 39.
    let image = written(&numbered(771).bytes, 41);
    assert_eq!(header(&image), [3, 39, 771, 1, 36, 41, 1]);
    assert_eq!(descriptor(&image, 36), (0, 35, 0xFF, 1, 1));
    assert_eq!(descriptor(&image, 37), (38, 0, 0x00, 2, 35));
    assert_eq!(descriptor(&image, 38), (0, 37, 0x00, 2, 1));
    assert_eq!(descriptor(&image, 39), (0, 0, 0x00, 3, 2));
    assert_eq!(pointer(&image, 37, 34), (749, 35));
    assert_eq!(pointer(&image, 38, 0), (771, 36));
    assert_eq!((pointer(&image, 39, 0), pointer(&image, 39, 1)), ((1, 37), (771, 38)));
    assert!(image[40 * 512..].iter().all(|&byte| byte == 0));
}

#[test]
fn every_count_of_records() {
    let mut rng = Rng::new(1);
    for (count, spread) in (0..900).zip(SPREADS.into_iter().cycle()) {
        let row = Row::random(&mut rng, count, spread);
        let nodes = least_nodes(count);
        for nodes in [nodes, nodes + 1, nodes + 30] {
            let image = written(&row.bytes, nodes);
            assert!(image == laid_down(&row.records, nodes), "{count} records, {nodes} nodes");
            assert_holds(&image, &row);
        }
    }
}

#[test]
fn every_key_is_found() {
    let mut rng = Rng::new(2);
    for count in [0, 1, 21, 22, 23, 44, 45, 770, 771] {
        for spread in SPREADS {
            let row = Row::random(&mut rng, count, spread);
            assert_finds_all(&written(&row.bytes, least_nodes(count)), &row);
        }
    }
}

#[test]
fn targets_that_need_map_nodes() {
    let mut rng = Rng::new(3);
    for (nodes, chain) in
        [(2_048, 0), (2_049, 1), (6_000, 1), (6_001, 2), (9_952, 2), (9_953, 3), (65_536, 17)]
    {
        for count in [0, 1, 900, most_records(nodes)] {
            let row = Row::random(&mut rng, count, SPREADS[count % SPREADS.len()]);
            let image = written(&row.bytes, nodes);
            assert!(image == laid_down(&row.records, nodes), "{count} records, {nodes} nodes");
            assert_holds(&image, &row);
            // The chain starts at the header and goes on to the next node until it ends.
            for number in 0..=chain {
                let next = if number < chain { number as u32 + 1 } else { 0 };
                let (kind, records) = if number == 0 { (0x01, 3) } else { (0x02, 1) };
                assert_eq!(descriptor(&image, number), (next, 0, kind, 0, records));
            }
            let first_leaf = if count == 0 { 0 } else { 1 + chain as u32 };
            assert_eq!(header(&image)[3], first_leaf, "{count} records, {nodes} nodes");
        }
    }
}

#[test]
fn bits_that_end_with_a_map_record() {
    // With 2,046 nodes in the tree 2,047 are in use, the last bit but one of the header's.
    for (leaves, index_nodes) in [(1_986, 57 + 2 + 1), (1_987, 57 + 2 + 1), (1_988, 57 + 2 + 1)] {
        let row = numbered(22 * leaves);
        let image = written(&row.bytes, 2_060);
        // The header and one map node.
        let used = 2 + leaves + index_nodes;
        let bits = [0x1F7, 512 + 14].map(|at| image[at]);
        let expected = match used {
            2_048 => [0xFF, 0x00],
            2_049 => [0xFF, 0x80],
            2_050 => [0xFF, 0xC0],
            _ => unreachable!("{used} nodes in use"),
        };
        assert_eq!(bits, expected, "{leaves} leaves");
        assert_eq!(check(&image), Verdict::SOUND);
    }
}

#[test]
fn the_longest_row() {
    let row = longest(65_536);
    // 63,644 full leaves, as the samples have it.
    assert_eq!(row.records.len(), 1_400_168);
    let image = written(&row.bytes, 65_536);
    // After the header and 17 map nodes: 63,644 + 1,819 + 52 + 2 + 1 nodes of the tree.
    assert_eq!(header(&image), [5, 65_535, 1_400_168, 18, 63_661, 65_536, 0]);
    assert_holds(&image, &row);
}

#[test]
fn the_sample() {
    let folder = std::path::Path::new(env!("CARGO_MANIFEST_DIR")).join("../../samples");
    let read = |name: &str| std::fs::read(folder.join(name)).expect(name);
    let row = images::rows::two_level();
    assert_eq!(read("written_two_level.row"), row.bytes);
    let image = written(&row.bytes, images::rows::TWO_LEVEL_NODES);
    assert!(read("written_two_level.img") == image);
    assert_eq!(header(&image), [2, 3, 30, 1, 2, 5, 1]);
    assert_holds(&image, &row);
}
