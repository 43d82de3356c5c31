//! Bytes that were never a volume, and images that were never one together.

use crate::block::asked::in_any_bytes;
use crate::block::comparison::BlockComparison;
use images::catalog::{self, CatalogPlan};
use images::volume::bench::{cartridge_catalog, cartridge_extents};
use images::{build, Plan, Rng};

pub fn any_bytes(comparison: &mut BlockComparison, seed: u64) {
    let mut rng = Rng::new(seed);
    for _ in 0..2_000 {
        let (catalog, extents) = (noise(&mut rng), noise(&mut rng));
        ask(comparison, &mut rng, &catalog, &extents);
        ask(comparison, &mut rng, &cartridge_catalog(), &extents);
        ask(comparison, &mut rng, &catalog, &cartridge_extents());
    }
    for turn in 0..1_500 {
        let catalog = catalog::build(&CatalogPlan::random(seed + turn, turn as usize % 4, 4)).image;
        let extents = build(&Plan::random(seed + turn, turn as usize % 4, 4)).image;
        ask(comparison, &mut rng, &catalog, &extents);
        // Each for the other.
        ask(comparison, &mut rng, &extents, &catalog);
        ask(comparison, &mut rng, &catalog, &catalog);
        ask(comparison, &mut rng, &extents, &extents);
    }
}

fn noise(rng: &mut Rng) -> Vec<u8> {
    let mut image = vec![0; rng.index(5 * 512)];
    rng.fill(&mut image);
    image
}

fn ask(comparison: &mut BlockComparison, rng: &mut Rng, catalog: &[u8], extents: &[u8]) {
    comparison.ask(catalog, extents, in_any_bytes(rng, catalog, 4));
}
