//! Sound catalogs under all their keys and those beside them, or as many as a long one can be asked for.

use crate::catalog::comparison::CatalogComparison;
use crate::catalog::keys;
use images::catalog::{build, samples, Built, CatalogPlan};
use images::{Plan, Rng};

/// Random trees of depth 0 to 4.
pub fn random(comparison: &mut CatalogComparison, seed: u64) {
    let mut rng = Rng::new(seed);
    for depth in 0..=4 {
        for turn in 0..200 {
            ask_all(comparison, &mut rng, &build(&CatalogPlan::random(seed + turn, depth, 12)));
        }
    }
    for built in [samples::two_level(), samples::three_level()] {
        ask_all(comparison, &mut rng, &built);
    }
}

/// Trees of depth 5 to 8, the deepest there are, narrow and wide.
pub fn deep(comparison: &mut CatalogComparison, seed: u64) {
    let mut rng = Rng::new(seed);
    for depth in 5..=8 {
        let narrow =
            Plan { records_per_leaf: 1..=1, ..CatalogPlan::tidy(seed, &vec![1; depth]).shape };
        ask_all(comparison, &mut rng, &build(&CatalogPlan::mixed(narrow)));
        for turn in 0..40 {
            ask_all(comparison, &mut rng, &build(&CatalogPlan::random(seed + turn, depth, 9)));
        }
    }
}

fn ask_all(comparison: &mut CatalogComparison, rng: &mut Rng, built: &Built) {
    let asked = keys::with_neighbours(built);
    comparison.ask(&built.image, keys::affordable(rng, asked, &built.image));
}
