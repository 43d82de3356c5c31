//! What a writer refuses, in which order, and that the target stays as it was.

use crate::fresh::{numbered, refuses, written};
use images::rows::{least_nodes, most_records, spoilings, Row, RowSpoiling, SPREADS};
use images::{Key, Record, Rng};

const LENGTH: u32 = 1;
const ROW: u32 = 19;
const NODES: u32 = 20;

/// A record with this key and zeros as its data.
fn record(file: u32, fork: u8, start: u16) -> Vec<u8> {
    let key = Key::new(file, fork, start.into());
    [&key.bytes()[..], &[0; 12]].concat()
}

#[track_caller]
fn takes(records: &[Vec<u8>]) {
    written(&records.concat(), 3);
}

#[track_caller]
fn refuses_row(records: &[Vec<u8>]) {
    refuses(&records.concat(), 3 * 512, ROW);
}

#[test]
fn target_lengths() {
    for row in [numbered(0), numbered(1), numbered(800)] {
        for len in [0, 1, 511, 513, 1_023, 33_554_431, 33_554_433, 33_554_944] {
            refuses(&row.bytes, len, LENGTH);
        }
    }
    written(&numbered(800).bytes, 65_536);
}

#[test]
fn row_lengths() {
    for len in (0..=100).filter(|len| len % 20 != 0) {
        refuses(&numbered(6).bytes[..len], 10 * 512, ROW);
    }
}

#[test]
fn length_bytes() {
    for byte in (0..=255).filter(|&byte| byte != 7) {
        for at in [0, 1, 2] {
            let mut row = numbered(3).bytes;
            row[20 * at] = byte;
            refuses(&row, 2 * 512, ROW);
        }
    }
}

#[test]
fn fork_bytes() {
    for byte in 1..=254 {
        for at in [0, 1, 2] {
            let mut row = numbered(3).bytes;
            row[20 * at + 1] = byte;
            refuses(&row, 2 * 512, ROW);
        }
    }
    for at in [0, 1, 2] {
        let mut row = numbered(3).bytes;
        row[20 * at + 1] = 0xFF;
        written(&row, 2);
    }
}

#[test]
fn order_of_keys() {
    // By file, then by fork as an unsigned byte, then by start block.
    takes(&[record(16, 0x00, 9), record(16, 0xFF, 0), record(17, 0x00, 0)]);
    takes(&[record(0, 0x00, 0), record(u32::MAX, 0xFF, 65_535)]);
    takes(&[record(1, 0x00, 0x00FF), record(1, 0x00, 0x0100)]);
    takes(&[record(0xFFFF, 0xFF, 65_535), record(0x1_0000, 0x00, 0)]);
    takes(&[record(0x7FFF_FFFF, 0x00, 0), record(0x8000_0000, 0x00, 0)]);
    takes(&[record(16, 0x00, 0x7FFF), record(16, 0x00, 0x8000)]);
    refuses_row(&[record(16, 0xFF, 0), record(16, 0x00, 9)]);
    refuses_row(&[record(17, 0x00, 0), record(16, 0xFF, 9)]);
    refuses_row(&[record(16, 0x00, 9), record(16, 0x00, 8)]);
    for key in [(0, 0x00, 0), (16, 0x00, 5), (u32::MAX, 0xFF, 65_535)] {
        let record = record(key.0, key.1, key.2);
        takes(std::slice::from_ref(&record));
        refuses_row(&[record.clone(), record]);
    }
}

#[test]
fn equal_keys_with_other_data() {
    let other = Record { key: Key::new(2, 0x00, 0), data: vec![9; 12] };
    let records = numbered(3).records;
    let row = Row::of(vec![records[0].clone(), records[1].clone(), other, records[2].clone()]);
    refuses(&row.bytes, 2 * 512, ROW);
}

#[test]
fn every_spoiling() {
    let mut rng = Rng::new(4);
    for (count, spread) in [0, 1, 2, 22, 23, 45, 771].into_iter().zip(SPREADS.into_iter().cycle()) {
        let row = Row::random(&mut rng, count, spread);
        let nodes = least_nodes(count);
        for spoiling in spoilings(&mut rng, &row) {
            let spoiled = spoiling.applied(&row);
            refuses(&spoiled, nodes * 512, RowSpoiling::NUMBER);
            // The row comes before the nodes that are wanted, and the target's length before both.
            refuses(&spoiled, 512, RowSpoiling::NUMBER);
            refuses(&spoiled, nodes * 512 + 1, LENGTH);
            refuses(&spoiled, 0, LENGTH);
        }
    }
}

#[test]
fn one_node_too_few() {
    for (count, nodes) in [(1, 2), (22, 2), (23, 4), (44, 4), (45, 5), (770, 37), (771, 40)] {
        let row = numbered(count).bytes;
        written(&row, nodes);
        for nodes in 1..nodes {
            refuses(&row, nodes * 512, NODES);
        }
        refuses(&row, nodes * 512 - 1, LENGTH);
    }
}

#[test]
fn one_record_too_many() {
    // Before and after one more map node; 2,049 nodes have no more room than 2,048.
    for (nodes, records) in [
        (1, 0),
        (2, 22),
        (3, 22),
        (4, 44),
        (100, 22 * 95),
        (2_048, 22 * 1_987),
        (2_049, 22 * 1_987),
        (6_000, 22 * 5_825),
        (6_001, 22 * 5_825),
        (65_536, 1_400_168),
    ] {
        assert_eq!(most_records(nodes), records, "{nodes} nodes");
        let row = numbered(records + 1).bytes;
        refuses(&row, nodes * 512, NODES);
        written(&row[..20 * records], nodes);
    }
}

#[test]
fn far_too_many_records() {
    let row = numbered(3_000_000).bytes;
    refuses(&row, 65_536 * 512, NODES);
    refuses(&row, 512, NODES);
}
