//! Lawful rows of all lengths, in targets with one node too few, just enough, and more.

use crate::write::comparison::WriteComparison;
use images::rows::{least_nodes, Row, SPREADS};
use images::Rng;

/// More than two levels have.
const EVERY_COUNT: usize = 800;

/// Those around full leaves and full index nodes, of two, three and four levels.
const BOUNDARIES: [usize; 16] =
    [0, 1, 2, 21, 22, 23, 43, 44, 45, 769, 770, 771, 26_949, 26_950, 26_951, 26_972];

pub fn every_count(comparison: &mut WriteComparison, seed: u64) {
    let mut rng = Rng::new(seed);
    for (count, spread) in (0..=EVERY_COUNT).zip(SPREADS.into_iter().cycle()) {
        let row = Row::random(&mut rng, count, spread);
        around_enough(comparison, &row, rng.index(60));
    }
    for count in BOUNDARIES {
        for spread in SPREADS {
            let row = Row::random(&mut rng, count, spread);
            around_enough(comparison, &row, rng.index(60));
        }
    }
}

/// Short rows more often than long ones.
pub fn random(comparison: &mut WriteComparison, seed: u64) {
    let mut rng = Rng::new(seed);
    for turn in 0..1_200 {
        let most = 1 << rng.index(14);
        let row = Row::random(&mut rng, 1 + turn % most, SPREADS[turn % SPREADS.len()]);
        let more = rng.index(200);
        around_enough(comparison, &row, more);
    }
}

/// As few nodes as it takes, one fewer where that leaves any, one more, and so many more.
fn around_enough(comparison: &mut WriteComparison, row: &Row, more: usize) {
    let enough = least_nodes(row.records.len());
    for nodes in [enough - 1, enough, enough + 1, enough + more] {
        if nodes > 0 {
            comparison.write_in(nodes, row);
        }
    }
}
