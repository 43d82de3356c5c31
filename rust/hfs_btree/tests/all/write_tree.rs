//! Fresh trees of the proved writer, byte for byte, and what it refuses.

use hfs_btree::{
    check, lookup, lookup_many, needed_work, packed, write_tree, Answer, KeyResult, Place, Verdict,
};
use images::bench::{e1, empty_tree, l1};
use images::rows::{
    laid_down, least_nodes, longest, map_nodes, most_records, spoilings, Row, RowSpoiling, Spread,
    SPREADS,
};
use images::{Key, Record, Rng};

const LENGTH: u32 = 1;
const ROW: u32 = 19;
const NODES: u32 = 20;

fn verdict(number: u32) -> Verdict {
    Verdict { number, place: Place { node: 0, offset: 0 } }
}

/// What the target held before; none of its bytes is zero.
fn lent(len: usize) -> Vec<u8> {
    (0..len).map(|at| (at % 251) as u8 + 1).collect()
}

#[track_caller]
fn written(row: &[u8], nodes: usize) -> Vec<u8> {
    let mut target = lent(nodes * 512);
    assert_eq!(write_tree(row, &mut target), verdict(0));
    target
}

#[track_caller]
fn refuses(row: &[u8], target_len: usize, number: u32) {
    let mut target = lent(target_len);
    assert_eq!(write_tree(row, &mut target), verdict(number));
    assert!(target == lent(target_len), "the target was touched");
}

/// Sound, and every key is found where its record belongs, with its data.
#[track_caller]
fn assert_holds(image: &[u8], row: &Row) {
    let mut work = vec![0xA5; needed_work(image.len())];
    assert_eq!(check(image, &mut work), verdict(0));
    let first_leaf = 1 + map_nodes(image.len() / 512);
    for (index, Record { key, data }) in row.records.iter().enumerate() {
        let found = lookup(image, key.file, key.fork, key.start as u16, &mut work);
        let (node, offset) = ((first_leaf + index / 22) as u32, 14 + 20 * (index % 22) as u32);
        assert_eq!(found.answer, Answer::Found { place: Place { node, offset } });
        assert_eq!(found.data[..], data[..]);
    }
}

/// Records of the data forks of the files from 1 on.
fn numbered(count: usize) -> Row {
    let record = |file: u32| Record { key: Key::new(file, 0x00, 0), data: vec![file as u8; 12] };
    Row::of((1..).take(count).map(record).collect())
}

#[test]
fn small_trees_of_the_paper() {
    assert!(written(&[], 1) == e1());
    assert!(written(&[], 2_048) == empty_tree(2_048));
    let mut record = vec![7, 0x00, 0, 0, 0, 16, 0, 5, 0x00, 0x64, 0x00, 0x03];
    record.resize(20, 0);
    assert!(written(&record, 2) == l1());
}

#[test]
fn leaves_and_index_nodes_that_are_just_full() {
    let mut rng = Rng::new(1);
    // The nodes in use: the header, the leaves, and 0, 1, 1 and 2 + 1 index nodes.
    for (count, nodes) in [(22, 1 + 1), (23, 1 + 2 + 1), (770, 1 + 35 + 1), (771, 1 + 36 + 3)] {
        assert_eq!(least_nodes(count), nodes);
        for spread in SPREADS {
            let row = Row::random(&mut rng, count, spread);
            refuses(&row.bytes, (nodes - 1) * 512, NODES);
            for nodes in [nodes, nodes + 1, nodes + 100] {
                let image = written(&row.bytes, nodes);
                assert!(image == laid_down(&row.records, nodes), "{count} records, {nodes} nodes");
                assert_holds(&image, &row);
            }
        }
    }
}

#[test]
fn map_nodes_that_the_target_needs() {
    let mut rng = Rng::new(2);
    for nodes in [2_048, 2_049, 6_000, 6_001, 65_536] {
        for count in [0, 30] {
            let row = Row::random(&mut rng, count, Spread::Random);
            let image = written(&row.bytes, nodes);
            assert!(image == laid_down(&row.records, nodes), "{count} records, {nodes} nodes");
            assert_holds(&image, &row);
        }
        refuses(&numbered(most_records(nodes) + 1).bytes, nodes * 512, NODES);
    }
}

#[test]
fn the_longest_row() {
    let row = longest(65_536);
    assert_eq!(row.records.len(), 1_400_168);
    let image = written(&row.bytes, 65_536);
    assert!(image == laid_down(&row.records, 65_536));
    let mut work = vec![0; needed_work(image.len())];
    let keys: Vec<u64> = row
        .records
        .iter()
        .map(|record| packed(record.key.file, record.key.fork, record.key.start as u16))
        .collect();
    let mut results = vec![0; keys.len()];
    assert_eq!(lookup_many(&image, &keys, &mut results, &mut work), verdict(0));
    for (index, result) in results.into_iter().enumerate() {
        // After the header and 17 map nodes.
        let data_at = 512 * (18 + index / 22) + 14 + 20 * (index % 22) + 8;
        assert_eq!(KeyResult::from(result), KeyResult::Found { data_at });
    }
}

#[test]
fn refusals_in_their_order() {
    let mut rng = Rng::new(3);
    for count in [0, 1, 30] {
        let row = Row::random(&mut rng, count, Spread::Random);
        for len in [0, 511, 513, 33_554_944] {
            refuses(&row.bytes, len, LENGTH);
        }
        for spoiling in spoilings(&mut rng, &row) {
            let spoiled = spoiling.applied(&row);
            refuses(&spoiled, 5 * 512, RowSpoiling::NUMBER);
            refuses(&spoiled, 512, RowSpoiling::NUMBER);
            refuses(&spoiled, 511, LENGTH);
        }
    }
    refuses(&numbered(30).bytes, 3 * 512, NODES);
    refuses(&[numbered(30).bytes, vec![7]].concat(), 3 * 512, ROW);
}
