//! Volumes with faults in the catalog, in the extents or in both, and with changes that are none.

use crate::block::asked::{self, all};
use crate::block::comparison::BlockComparison;
use crate::families::change_a_field;
use images::spoil::{harmless, spoilings, KeyFaults, Spoiling};
use images::volume::{build, samples, Fit, Volume, VolumePlan};
use images::{Built, Format, Rng};

/// Every fault that the table has, in one image with the other sound, and with any fault there.
pub fn by_the_table(comparison: &mut BlockComparison, seed: u64) {
    let mut rng = Rng::new(seed);
    for depth in 0..=5 {
        for turn in 0..10 {
            let fit = [Fit::Whole, Fit::Partly][turn as usize % 2];
            let volume = build(&VolumePlan::random(seed + turn, depth, 4, fit));
            each_fault(comparison, &mut rng, &volume);
        }
    }
    each_fault(comparison, &mut rng, &samples::two_level());
}

fn each_fault(comparison: &mut BlockComparison, rng: &mut Rng, volume: &Volume) {
    let asked = all(rng, volume);
    let (in_catalog, in_extents) = (known(&volume.catalog), known(&volume.extents));
    let (catalog, extents) = (&volume.catalog.image, &volume.extents.image);
    for spoiling in &in_catalog {
        let image = spoiled(catalog, spoiling);
        comparison.ask(&image, extents, asked::some(rng, &asked, 2));
        let other = spoiled(extents, &in_extents[rng.index(in_extents.len())]);
        comparison.ask(&image, &other, asked::some(rng, &asked, 1));
    }
    for spoiling in &in_extents {
        let image = spoiled(extents, spoiling);
        comparison.ask(catalog, &image, asked::some(rng, &asked, 2));
        let other = spoiled(catalog, &in_catalog[rng.index(in_catalog.len())]);
        comparison.ask(&other, &image, asked::some(rng, &asked, 1));
    }
}

fn known<K: KeyFaults>(built: &Built<K>) -> Vec<Spoiling> {
    [harmless(built), spoilings(built)].concat()
}

fn spoiled(image: &[u8], spoiling: &Spoiling) -> Vec<u8> {
    let mut image = image.to_vec();
    spoiling.apply(&mut image);
    image
}

/// Volumes with a few bytes changed, mostly where fields are.
pub fn at_random(comparison: &mut BlockComparison, seed: u64) {
    let mut rng = Rng::new(seed);
    for turn in 0..6_000 {
        let fit = [Fit::Whole, Fit::Partly][turn as usize % 2];
        let volume = build(&VolumePlan::random(seed + turn, turn as usize % 6, 5, fit));
        let asked = all(&mut rng, &volume);
        let [mut catalog, mut extents] = [volume.catalog.image, volume.extents.image];
        let changes = rng.index(3);
        for _ in 0..=changes {
            match rng.flip() {
                true => change_a_field(&mut rng, Format::CATALOG, &mut catalog),
                false => change_a_field(&mut rng, Format::HFS, &mut extents),
            }
        }
        comparison.ask(&catalog, &extents, asked::some(&mut rng, &asked, 4));
    }
}
