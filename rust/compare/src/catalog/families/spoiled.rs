//! Catalogs with one fault or a few, and with changes that are none.

use crate::catalog::comparison::CatalogComparison;
use crate::catalog::keys;
use crate::families::change_a_field;
use images::catalog::{build, samples, Built, CatalogPlan};
use images::spoil::{harmless, spoilings, Spoiling};
use images::{Format, Rng};

/// Every fault that the table has, alone and with one other.
pub fn by_the_table(comparison: &mut CatalogComparison, seed: u64) {
    let mut rng = Rng::new(seed);
    for depth in 0..=8 {
        for turn in 0..12 {
            each_fault(comparison, &mut rng, &build(&CatalogPlan::random(seed + turn, depth, 5)));
        }
    }
    for built in [samples::two_level(), samples::three_level()] {
        each_fault(comparison, &mut rng, &built);
    }
}

fn each_fault(comparison: &mut CatalogComparison, rng: &mut Rng, built: &Built) {
    let known: Vec<Spoiling> = [harmless(built), spoilings(built)].concat();
    let asked = keys::with_neighbours(built);
    for spoiling in &known {
        let mut image = built.image.clone();
        spoiling.apply(&mut image);
        comparison.ask(&image, keys::some(rng, &asked, 2));
        let other = &known[rng.index(known.len())];
        // A changed length would leave the other fault no room.
        if other.number != 1 && spoiling.number != 1 {
            other.apply(&mut image);
            comparison.ask(&image, keys::some(rng, &asked, 1));
        }
    }
}

/// Catalogs with a few bytes changed, mostly where fields are.
pub fn at_random(comparison: &mut CatalogComparison, seed: u64) {
    let mut rng = Rng::new(seed);
    let samples = [samples::two_level(), samples::three_level()];
    for turn in 0..16_000 {
        let random;
        let built = match samples.get(turn % 5) {
            Some(sample) => sample,
            None => {
                random = build(&CatalogPlan::random(seed + turn as u64, turn % 9, 6));
                &random
            }
        };
        let asked = keys::with_neighbours(built);
        let mut image = built.image.clone();
        for _ in 0..=rng.index(4) {
            change_a_field(&mut rng, Format::CATALOG, &mut image);
        }
        comparison.ask(&image, keys::some(&mut rng, &asked, 3));
    }
}
