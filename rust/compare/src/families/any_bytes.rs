//! Bytes that were never an image.

use super::{small, turns};
use crate::comparison::Comparison;
use crate::keys;
use images::node::LEAF_KIND;
use images::{build, Format, Plan, Rng};

pub fn any_bytes(comparison: &mut Comparison, format: Format, seed: u64) {
    let mut rng = Rng::new(seed);
    for _ in 0..turns(format, 3_000) {
        let mut image = vec![0; rng.index(8 * format.node_size)];
        rng.fill(&mut image);
        ask_some(comparison, &mut rng, format, &image);
        let image = behind_a_header(&mut rng, format);
        ask_some(comparison, &mut rng, format, &image);
    }
    for turn in 0..turns(format, 1_200) as u64 {
        let image = shuffled_nodes(&mut rng, format, seed + turn);
        ask_some(comparison, &mut rng, format, &image);
    }
}

fn ask_some(comparison: &mut Comparison, rng: &mut Rng, format: Format, image: &[u8]) {
    let mut asked = keys::at_record_places(format, image);
    asked.extend(keys::always());
    comparison.ask(image, keys::some(rng, &asked, 4));
}

/// A good header with small numbers in its fields, and noise behind it.
fn behind_a_header(rng: &mut Rng, format: Format) -> Vec<u8> {
    let mut image = small::empty_tree(format, 2 + rng.index(6) as u32);
    rng.fill(&mut image[format.node_size..]);
    image[15] = 1 + rng.index(8) as u8;
    for field in [0, 16, 20, 24, 28] {
        image[field + 3] = rng.index(9) as u8;
    }
    image
}

/// The nodes of a tree in another order, so that leaves stand where they should not.
fn shuffled_nodes(rng: &mut Rng, format: Format, seed: u64) -> Vec<u8> {
    let image = build(&Plan::random_in(format, seed, seed as usize % 5, 6)).image;
    let mut nodes: Vec<&[u8]> = image.chunks_exact(format.node_size).collect();
    rng.shuffle(&mut nodes[1..]);
    let mut image = nodes.concat();
    if rng.flip() {
        // One more node that claims to be a leaf.
        let node = rng.index(image.len() / format.node_size) * format.node_size;
        image[node + 8] = LEAF_KIND;
    }
    image
}
