//! Catalogs of thousands of nodes, up to the most there are.

use crate::catalog::comparison::CatalogComparison;
use crate::catalog::keys;
use crate::families::change_a_field;
use images::catalog::{build, samples, Built, CatalogPlan};
use images::spoil::by_number;
use images::{Format, Rng};

/// The largest sound catalogs, under keys of all their parts.
pub fn largest(comparison: &mut CatalogComparison, seed: u64) {
    let mut rng = Rng::new(seed);
    let deepest = build(&CatalogPlan::untidy(seed, &[1, 2, 9, 40, 200, 700, 1_400, 2_800]));
    let sound = [
        (samples::largest(), 12),
        (samples::largest_mixed(), 12),
        (samples::largest_mixed_of(6_000), 100),
        (deepest, 100),
    ];
    for (built, count) in sound {
        comparison.ask(&built.image, keys::near_some(&mut rng, &built, count));
    }
}

/// Such with faults, by the table and at random.
pub fn spoiled(comparison: &mut CatalogComparison, seed: u64) {
    let mut rng = Rng::new(seed);
    let built = samples::largest_mixed_of(3_000);
    for number in 1..=10 {
        let known = by_number(&built, number);
        for _ in 0..12 {
            let mut image = built.image.clone();
            known[rng.index(known.len())].apply(&mut image);
            comparison.ask(&image, keys::near_some(&mut rng, &built, 1));
        }
    }
    for _ in 0..120 {
        let image = changed(&mut rng, &built);
        comparison.ask(&image, keys::near_some(&mut rng, &built, 2));
    }
}

fn changed(rng: &mut Rng, built: &Built) -> Vec<u8> {
    let mut image = built.image.clone();
    for _ in 0..=rng.index(3) {
        change_a_field(rng, Format::CATALOG, &mut image);
    }
    image
}
