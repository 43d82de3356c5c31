//! Targets around the sizes at which they need one more map node.

use crate::write::comparison::WriteComparison;
use images::node::MOST_NODES;
use images::rows::{most_records, Row, SPREADS};
use images::Rng;

/// The most nodes that the header and so many map nodes have bits for.
const BITS: [usize; 4] = [2_048, 6_000, 9_952, 13_904];

/// The most that 16 map nodes have; the largest target needs 17.
const LAST_BITS: usize = 65_280;

pub fn map_nodes(comparison: &mut WriteComparison, seed: u64) {
    let mut rng = Rng::new(seed);
    for bits in BITS {
        for nodes in bits - 2..=bits + 3 {
            let most = most_records(nodes);
            // The last leaf full or with one record, and one more than there is room for.
            for count in [0, 1, 771, most - 22, most - 21, most, most + 1] {
                write(comparison, &mut rng, nodes, count);
            }
        }
    }
    for nodes in [LAST_BITS, LAST_BITS + 1, MOST_NODES] {
        for count in [0, 771] {
            write(comparison, &mut rng, nodes, count);
        }
    }
}

fn write(comparison: &mut WriteComparison, rng: &mut Rng, nodes: usize, count: usize) {
    let spread = SPREADS[rng.index(SPREADS.len())];
    comparison.write_in(nodes, &Row::random(rng, count, spread));
}
