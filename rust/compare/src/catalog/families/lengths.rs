//! Catalogs that end too early or too late.

use crate::catalog::comparison::CatalogComparison;
use crate::catalog::keys;
use images::catalog::{bench, build, Built, CatalogPlan, Key};
use images::node::{put32, MOST_NODES};
use images::Rng;

const TOTAL_NODES_AT: usize = 36;
const FREE_NODES_AT: usize = 40;

pub fn lengths(comparison: &mut CatalogComparison, seed: u64) {
    let mut rng = Rng::new(seed);
    every_length(comparison, &mut rng);
    for turn in 0..45 {
        let plan = CatalogPlan::random(seed + turn, turn as usize % 9, 8);
        at_node_ends(comparison, &mut rng, &build(&plan));
    }
    around_the_limit(comparison);
}

/// A small catalog cut at every byte.
fn every_length(comparison: &mut CatalogComparison, rng: &mut Rng) {
    let image = bench::two_leaves();
    let asked = keys::at_record_places(&image);
    for len in 0..=image.len() {
        comparison.ask(&image[..len], keys::some(rng, &asked, 2));
    }
}

/// Cut at each node and right beside it; also with a header that says the new total.
fn at_node_ends(comparison: &mut CatalogComparison, rng: &mut Rng, built: &Built) {
    let asked = keys::with_neighbours(built);
    for total in 0..=built.total() as usize + 1 {
        let end = total * 512;
        for len in [end.saturating_sub(1), end, end + 1] {
            let mut image = built.image.clone();
            image.resize(len, 0);
            comparison.ask(&image, keys::some(rng, &asked, 1));
            if len >= 512 {
                put32(&mut image, TOTAL_NODES_AT, total as u32);
                comparison.ask(&image, keys::some(rng, &asked, 2));
            }
        }
    }
}

/// 65,536 nodes are the most that are taken: a small catalog lengthened with zeros, also with a header
/// that says so.
fn around_the_limit(comparison: &mut CatalogComparison) {
    let limit = MOST_NODES * 512;
    let asked = || [Key::new(2, b"heights"), Key::new(2, &[b'n'; 32])];
    for len in [limit - 512, limit - 1, limit, limit + 1, limit + 512] {
        let mut image = bench::cartridge();
        image.resize(len, 0);
        comparison.ask(&image, asked());
        let total = (len / 512) as u32;
        put32(&mut image, TOTAL_NODES_AT, total);
        put32(&mut image, FREE_NODES_AT, total - 2);
        comparison.ask(&image, asked());
    }
}
