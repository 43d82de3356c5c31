//! Catalogs with more nodes than the header's map has bits for.

use crate::catalog::comparison::CatalogComparison;
use crate::catalog::keys;
use images::catalog::{build, CatalogPlan};
use images::spoil::by_number;
use images::{Format, Plan, Rng};

/// The faults of the chain and of the bits.
const NUMBERS: [u32; 2] = [3, 9];

/// Two map nodes are needed.
pub fn needed(comparison: &mut CatalogComparison, seed: u64) {
    let mut rng = Rng::new(seed);
    let format = Format::CATALOG;
    let total = format.header_bits() + format.map_node_bits() + 1 + rng.index(900);
    let mut plan = CatalogPlan::untidy(seed, &[1, 5]);
    let free_nodes = total - plan.shape.tree_nodes() - 3;
    plan.shape = Plan { free_nodes, ..plan.shape };
    let built = build(&plan);
    let asked = keys::with_neighbours(&built);
    comparison.ask(&built.image, keys::some(&mut rng, &asked, 5));
    for number in NUMBERS {
        let known = by_number(&built, number);
        for _ in 0..20 {
            let mut image = built.image.clone();
            known[rng.index(known.len())].apply(&mut image);
            comparison.ask(&image, keys::some(&mut rng, &asked, 1));
        }
    }
}
