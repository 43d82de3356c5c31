//! Small rows with one byte changed, at every place.

use crate::write::comparison::WriteComparison;
use images::rows::{least_nodes, Row, Spread};
use images::{Key, Record, Rng};

pub fn one_byte(comparison: &mut WriteComparison, seed: u64) {
    let mut rng = Rng::new(seed);
    let small = Row::of(
        [Key::new(16, 0x00, 5), Key::new(16, 0xFF, 0), Key::new(17, 0x00, 0x0100)]
            .map(|key| Record { key, data: vec![0xDA; 12] })
            .to_vec(),
    );
    for at in 0..small.bytes.len() {
        for value in 0x00..=0xFF {
            write_changed(comparison, &small, at, value);
        }
    }
    for spread in [Spread::AcrossForks, Spread::ForkEnds, Spread::Random] {
        let row = Row::random(&mut rng, 24, spread);
        for at in 0..row.bytes.len() {
            let byte = row.bytes[at];
            let any = byte ^ rng.between(1, 255) as u8;
            for value in [byte.wrapping_add(1), byte.wrapping_sub(1), !byte, byte ^ 0x80, any] {
                write_changed(comparison, &row, at, value);
            }
        }
    }
}

/// In a target that has just enough nodes.
fn write_changed(comparison: &mut WriteComparison, row: &Row, at: usize, value: u8) {
    let mut bytes = row.bytes.clone();
    bytes[at] = value;
    comparison.write(&bytes, least_nodes(row.records.len()) * 512);
}
