//! Sound trees under all their keys, or as many as a long image can be asked for.

use super::{small, turns};
use crate::comparison::Comparison;
use crate::keys;
use images::{build, samples, Built, Format, Key, Plan, Rng};

/// Random trees of depth 0 to 4.
pub fn random(comparison: &mut Comparison, format: Format, seed: u64) {
    let mut rng = Rng::new(seed);
    for depth in 0..=4 {
        for turn in 0..turns(format, 60) as u64 {
            let plan = Plan::random_in(format, seed + turn, depth, 12);
            ask_all(comparison, &mut rng, &build(&plan));
        }
    }
    let samples = [
        samples::two_level(),
        samples::three_level(),
        samples::falling_map_nodes(),
        samples::two_level_plus(),
        samples::three_level_plus(),
    ];
    for built in samples.iter().filter(|built| built.format == format) {
        ask_all(comparison, &mut rng, built);
    }
}

/// Trees of depth 5 to 8, the deepest there are, narrow and wide.
pub fn deep(comparison: &mut Comparison, format: Format, seed: u64) {
    let mut rng = Rng::new(seed);
    for depth in 5..=8 {
        let full = Plan::tidy_in(format, seed, &vec![1; depth]);
        ask_all(comparison, &mut rng, &build(&Plan { records_per_leaf: 1..=1, ..full }));
        for turn in 0..turns(format, 16) as u64 {
            let plan = Plan::random_in(format, seed + turn, depth, 9);
            ask_all(comparison, &mut rng, &build(&plan));
        }
    }
}

/// Nodes of every size: one leaf, or a root over leaves of one record; every key, and one beside each.
pub fn every_size(comparison: &mut Comparison, format: Format, seed: u64) {
    let mut rng = Rng::new(seed);
    let mut ask = |image: Vec<u8>, count: usize| {
        let files = 0..=count as u32 + 1;
        let asked = files.flat_map(|file| [0, 1].map(|start| Key::new(file, 0x00, start)));
        comparison.ask(&image, keys::affordable(&mut rng, asked.collect(), &image));
    };
    counts(format.most_leaf_records())
        .for_each(|count| ask(small::leaf_with(format, count), count));
    counts(format.most_index_records())
        .for_each(|count| ask(small::index_with(format, count), count));
}

/// Every count up to the most; of larger ones only the most and those at which halving takes one more.
fn counts(most: usize) -> impl Iterator<Item = usize> {
    (1..=most).filter(move |&count| {
        let beside_power = (count - 1..=count + 1).any(usize::is_power_of_two);
        count <= 60 || beside_power || count + 1 >= most
    })
}

fn ask_all(comparison: &mut Comparison, rng: &mut Rng, built: &Built) {
    let asked = keys::with_neighbours(built);
    comparison.ask(&built.image, keys::affordable(rng, asked, &built.image));
}
