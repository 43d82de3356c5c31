//! Trees with more nodes than the header's map has bits for.

use crate::comparison::Comparison;
use crate::keys;
use images::node::MOST_NODES;
use images::spoil::{by_number, Patch, Spoiling};
use images::{build, Built, Format, Plan, Rng};

/// The faults of the chain and of the bits.
const NUMBERS: [u32; 2] = [3, 9];

/// Two map nodes are needed where so many nodes can be, else one; from 16,384 bytes on the header has
/// bits for all.
pub fn needed(comparison: &mut Comparison, format: Format, seed: u64) {
    let mut rng = Rng::new(seed);
    let (in_header, in_map_node) = (format.header_bits(), format.map_node_bits());
    let for_two = in_header + in_map_node + 1 + rng.index(900);
    let total = if for_two <= MOST_NODES / 4 { for_two } else { in_header + 1 + rng.index(900) };
    if total > MOST_NODES {
        return;
    }
    let plan = Plan { map_nodes: 0, old_garbage: false, ..Plan::untidy_in(format, seed, &[1, 5]) };
    let free_nodes = total - plan.tree_nodes() - 3;
    spoil_in_place(comparison, &mut rng, build(&Plan { free_nodes, ..plan }));
}

/// Such an image may have hundreds of megabytes, nearly all of them zeros that no reader reads, so it
/// is not copied.
fn spoil_in_place(comparison: &mut Comparison, rng: &mut Rng, mut built: Built) {
    let asked = keys::with_neighbours(&built);
    comparison.ask(&built.image, keys::some(rng, &asked, 5));
    for number in NUMBERS {
        let known = by_number(&built, number);
        for _ in 0..20 {
            let spoiling = &known[rng.index(known.len())];
            let restored = restoring(spoiling, &built.image);
            spoiling.apply(&mut built.image);
            comparison.ask(&built.image, keys::some(rng, &asked, 1));
            restored.apply(&mut built.image);
        }
    }
}

/// What takes the spoiling of an image back.
fn restoring(spoiling: &Spoiling, image: &[u8]) -> Spoiling {
    let as_it_was = |patch: &Patch| match patch {
        Patch::Write { at, bytes } => Patch::bytes(*at, &image[*at..*at + bytes.len()]),
        Patch::Resize(_) => Patch::Resize(image.len()),
    };
    let patches = spoiling.patches.iter().map(as_it_was).collect();
    Spoiling { patches, ..spoiling.clone() }
}
