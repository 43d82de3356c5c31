//! Images that end too early or too late.

use super::small;
use crate::comparison::Comparison;
use crate::keys;
use images::by_hand::three_levels_by_hand_in;
use images::node::{put32, MOST_NODES};
use images::{build, samples, Built, Format, Key, Plan, Rng};

const TOTAL_NODES_AT: usize = 36;
const FREE_NODES_AT: usize = 40;

/// The longest image in nodes of 512 bytes.
const LIMIT_AT_512: usize = MOST_NODES * 512;

pub fn lengths(comparison: &mut Comparison, format: Format, seed: u64) {
    let mut rng = Rng::new(seed);
    every_length(comparison, &mut rng, format);
    let deepest = if format.node_size == 512 { 8 } else { 4 };
    for depth in 0..=deepest {
        at_node_ends(comparison, &mut rng, &build(&Plan::random_in(format, seed, depth, 8)));
    }
    if format == Format::HFS {
        at_node_ends(comparison, &mut rng, &samples::three_level());
    }
    around_the_limit(comparison, format);
}

/// A small tree cut at every byte; in larger nodes, near their ends and here and there.
fn every_length(comparison: &mut Comparison, rng: &mut Rng, format: Format) {
    let image = three_levels_by_hand_in(format);
    let asked = keys::at_record_places(format, &image);
    for len in 0..=image.len() {
        let beside_node_end = (len + 16) % format.node_size <= 32;
        if format.node_size == 512 || beside_node_end || len % 997 == 0 {
            comparison.ask(&image[..len], keys::some(rng, &asked, 2));
        }
    }
}

/// Cut at each node and right beside it; also with a header that says the new total.
fn at_node_ends(comparison: &mut Comparison, rng: &mut Rng, built: &Built) {
    let node_size = built.format.node_size;
    let asked = keys::with_neighbours(built);
    for total in 0..=built.total() as usize + 1 {
        let end = total * node_size;
        for len in [end.saturating_sub(1), end, end + 1] {
            let mut image = built.image.clone();
            image.resize(len, 0);
            comparison.ask(&image, keys::some(rng, &asked, 1));
            if len >= node_size {
                put32(&mut image, TOTAL_NODES_AT, total as u32);
                comparison.ask(&image, keys::some(rng, &asked, 3));
            }
        }
    }
}

/// 65,536 nodes are the most that are taken, whatever their size.
fn around_the_limit(comparison: &mut Comparison, format: Format) {
    let node_size = format.node_size;
    for limit in [LIMIT_AT_512, MOST_NODES * node_size] {
        for len in [limit - node_size, limit - 1, limit, limit + 1, limit + node_size] {
            ask_lengthened(comparison, format, len);
        }
        if node_size == 512 {
            return;
        }
    }
}

/// A small tree lengthened with zeros; also with a header that says so.
fn ask_lengthened(comparison: &mut Comparison, format: Format, len: usize) {
    // Fresh zeros take no memory until they are written, so that even two gigabytes cost little.
    let mut image = vec![0; len];
    let small = small::l1(format);
    image[..small.len()].copy_from_slice(&small);
    let last_key = Key::new(u32::MAX, 0xFF, u32::MAX);
    comparison.ask(&image, [Key::new(16, 0x00, 5), last_key]);
    let total = (len / format.node_size) as u32;
    put32(&mut image, TOTAL_NODES_AT, total);
    put32(&mut image, FREE_NODES_AT, total - 2);
    comparison.ask(&image, [Key::new(16, 0x00, 5), last_key]);
}
