//! Rows that are not of whole records with lawful and ascending keys, in targets of all kinds.

use crate::write::comparison::{WriteComparison, WRONG_LENGTH};
use images::rows::{least_nodes, spoilings, Row, RowSpoiling, SPREADS};
use images::Rng;

const COUNTS: [usize; 14] = [0, 1, 2, 3, 4, 21, 22, 23, 44, 45, 100, 770, 771, 1_500];

pub fn spoiled(comparison: &mut WriteComparison, seed: u64) {
    let mut rng = Rng::new(seed);
    for count in COUNTS {
        for spread in SPREADS {
            let row = Row::random(&mut rng, count, spread);
            for spoiling in spoilings(&mut rng, &row) {
                each_target(comparison, &mut rng, &row, &spoiling);
            }
        }
    }
}

/// The row comes before the nodes that are wanted, and the target's length before both.
fn each_target(comparison: &mut WriteComparison, rng: &mut Rng, row: &Row, spoiling: &RowSpoiling) {
    let spoiled = spoiling.applied(row);
    let enough = least_nodes(row.records.len());
    // One node is the fewest that a target can have.
    let fewer = 1 + rng.index(enough.max(2) - 1);
    for nodes in [enough, enough + rng.index(9), fewer] {
        comparison.write_for(RowSpoiling::NUMBER, &spoiled, nodes * 512);
    }
    let beside = rng.between(1, 511) as usize;
    let wrong_lengths = [0, enough * 512 - beside, enough * 512 + beside, beside];
    comparison.write_for(WRONG_LENGTH, &spoiled, wrong_lengths[rng.index(4)]);
}
