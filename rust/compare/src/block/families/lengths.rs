//! Volumes with a catalog or an extents image that ends too early or too late.

use crate::block::asked::{self, all};
use crate::block::comparison::BlockComparison;
use crate::block::question::Asked;
use images::node::{put32, MOST_NODES};
use images::volume::bench::{cartridge_catalog, cartridge_extents};
use images::volume::{build, Fit, VolumePlan};
use images::{catalog, Rng};

const TOTAL_NODES_AT: usize = 36;
const FREE_NODES_AT: usize = 40;

pub fn lengths(comparison: &mut BlockComparison, seed: u64) {
    let mut rng = Rng::new(seed);
    for turn in 0..30 {
        let volume = build(&VolumePlan::random(seed + turn, turn as usize % 6, 5, Fit::Whole));
        let asked = all(&mut rng, &volume);
        let (catalog, extents) = (&volume.catalog.image, &volume.extents.image);
        for image in resized(catalog) {
            comparison.ask(&image, extents, asked::some(&mut rng, &asked, 1));
        }
        for image in resized(extents) {
            comparison.ask(catalog, &image, asked::some(&mut rng, &asked, 1));
        }
    }
    around_the_limit(comparison);
}

/// Cut at each node and right beside it; also with a header that says the new total.
fn resized(image: &[u8]) -> Vec<Vec<u8>> {
    let mut images = Vec::new();
    for total in 0..=image.len() / 512 + 1 {
        let end = total * 512;
        for len in [end.saturating_sub(1), end, end + 1] {
            let mut image = image.to_vec();
            image.resize(len, 0);
            images.push(image.clone());
            if len >= 512 {
                put32(&mut image, TOTAL_NODES_AT, total as u32);
                images.push(image);
            }
        }
    }
    images
}

/// 65,536 nodes are the most that are taken, of either image.
fn around_the_limit(comparison: &mut BlockComparison) {
    let (catalog, extents) = (cartridge_catalog(), cartridge_extents());
    for total in [MOST_NODES, MOST_NODES + 1] {
        comparison.ask(&lengthened(&catalog, 2, total), &extents, heights());
        comparison.ask(&catalog, &lengthened(&extents, 4, total), heights());
    }
}

/// The image with free nodes after those in use, and a header that says so.
fn lengthened(image: &[u8], used: usize, total: usize) -> Vec<u8> {
    let mut image = image.to_vec();
    image.resize(total * 512, 0);
    put32(&mut image, TOTAL_NODES_AT, total as u32);
    put32(&mut image, FREE_NODES_AT, (total - used) as u32);
    image
}

fn heights() -> [Asked; 3] {
    let key = catalog::Key::new(2, b"Heights");
    [0, 5, 18].map(|block| Asked { key: key.clone(), fork: 0x00, block })
}
