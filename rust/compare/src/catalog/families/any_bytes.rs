//! Bytes that were never a catalog.

use crate::catalog::comparison::CatalogComparison;
use crate::catalog::keys;
use images::catalog::{bench, build, CatalogPlan};
use images::node::LEAF_KIND;
use images::Rng;

pub fn any_bytes(comparison: &mut CatalogComparison, seed: u64) {
    let mut rng = Rng::new(seed);
    for _ in 0..10_000 {
        let mut image = vec![0; rng.index(8 * 512)];
        rng.fill(&mut image);
        ask_some(comparison, &mut rng, &image);
        let image = behind_a_header(&mut rng);
        ask_some(comparison, &mut rng, &image);
    }
    for turn in 0..6_000 {
        let image = shuffled_nodes(&mut rng, seed + turn);
        ask_some(comparison, &mut rng, &image);
    }
}

fn ask_some(comparison: &mut CatalogComparison, rng: &mut Rng, image: &[u8]) {
    let mut asked = keys::at_record_places(image);
    asked.extend(keys::always());
    comparison.ask(image, keys::some(rng, &asked, 4));
}

/// A good header with small numbers in its fields, and noise behind it.
fn behind_a_header(rng: &mut Rng) -> Vec<u8> {
    let mut image = bench::empty_tree(2 + rng.index(6) as u32);
    rng.fill(&mut image[512..]);
    image[15] = 1 + rng.index(8) as u8;
    for field in [0, 16, 20, 24, 28] {
        image[field + 3] = rng.index(9) as u8;
    }
    image
}

/// The nodes of a catalog in another order, so that leaves stand where they should not.
fn shuffled_nodes(rng: &mut Rng, seed: u64) -> Vec<u8> {
    let image = build(&CatalogPlan::random(seed, seed as usize % 5, 6)).image;
    let mut nodes: Vec<&[u8]> = image.chunks_exact(512).collect();
    rng.shuffle(&mut nodes[1..]);
    let mut image = nodes.concat();
    if rng.flip() {
        // One more node that claims to be a leaf.
        let node = rng.index(image.len() / 512) * 512;
        image[node + 8] = LEAF_KIND;
    }
    image
}
