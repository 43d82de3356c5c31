//! Bytes that were never a row, and records in any order.

use crate::write::comparison::WriteComparison;
use images::rows::Row;
use images::{Key, Record, Rng};

pub fn any_bytes(comparison: &mut WriteComparison, seed: u64) {
    let mut rng = Rng::new(seed);
    for _ in 0..4_000 {
        let mut noise = vec![0; rng.index(200)];
        rng.fill(&mut noise);
        comparison.write(&noise, any_target(&mut rng));
        let row = of_few_keys(&mut rng);
        comparison.write(&row, any_target(&mut rng));
        let row = of_few_keys(&mut rng);
        comparison.write(&row, 4 * 512);
    }
}

/// A few records with lawful keys of two files, which ascend or do not.
fn of_few_keys(rng: &mut Rng) -> Vec<u8> {
    let record = |rng: &mut Rng| {
        let fork = if rng.flip() { 0x00 } else { 0xFF };
        let start = [0, 1, 255, 256, 65_535][rng.index(5)];
        Record {
            key: Key::new(rng.index(2) as u32, fork, start),
            data: vec![rng.index(2) as u8; 12],
        }
    };
    let count = rng.index(4);
    Row::of((0..count).map(|_| record(rng)).collect()).bytes
}

fn any_target(rng: &mut Rng) -> usize {
    [rng.index(5) * 512, rng.index(5 * 512)][rng.index(2)]
}
