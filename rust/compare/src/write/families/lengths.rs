//! Targets that are not of whole nodes, or of none, or of too many.

use crate::write::comparison::{WriteComparison, WRONG_LENGTH};
use images::node::MOST_NODES;
use images::rows::{spoilings, Row, SPREADS};
use images::Rng;

/// Every length up to a little more than three nodes have.
const EVERY_LENGTH: usize = 1_600;

const LIMIT: usize = MOST_NODES * 512;

pub fn lengths(comparison: &mut WriteComparison, seed: u64) {
    let mut rng = Rng::new(seed);
    let rows = [0, 1, 22, 30, 771].map(|count| {
        let spread = SPREADS[rng.index(SPREADS.len())];
        Row::random(&mut rng, count, spread)
    });
    for row in &rows {
        let spoilings = spoilings(&mut rng, row);
        for len in 0..=EVERY_LENGTH {
            // The length comes before the row, and before the nodes that are wanted.
            let spoiled = spoilings[rng.index(spoilings.len())].applied(row);
            if len == 0 || len % 512 != 0 {
                comparison.write_for(WRONG_LENGTH, &row.bytes, len);
                comparison.write_for(WRONG_LENGTH, &spoiled, len);
            } else {
                comparison.write_in(len / 512, row);
            }
        }
    }
    let row = &rows[3];
    let spoiled = spoilings(&mut rng, row)[0].applied(row);
    for len in [LIMIT - 1, LIMIT + 1, LIMIT + 511, LIMIT + 512, 2 * LIMIT] {
        comparison.write_for(WRONG_LENGTH, &row.bytes, len);
        comparison.write_for(WRONG_LENGTH, &spoiled, len);
    }
    for nodes in [MOST_NODES - 1, MOST_NODES] {
        comparison.write_in(nodes, row);
    }
}
