//! Images of thousands of nodes, up to the most there are.

use super::spoiled::change_a_field;
use crate::comparison::Comparison;
use crate::keys;
use images::spoil::by_number;
use images::{build, samples, Built, Edition, Format, Plan, Rng};

/// So many keys are looked up at once.
const MANY: usize = 100_000;

/// The length of the long images of HFS Plus, and of those that are spoiled.
const LONG: usize = 16 << 20;
const SPOILED: usize = 2 << 20;

/// The largest sound images, under keys of all their parts.
pub fn largest(comparison: &mut Comparison, format: Format, seed: u64) {
    let mut rng = Rng::new(seed);
    let sound = match format.edition {
        Edition::Hfs => largest_of_hfs(seed),
        Edition::HfsPlus => largest_of_plus(format, seed),
    };
    for (built, count) in sound {
        let asked = keys::with_neighbours(&built);
        comparison.ask(&built.image, keys::some(&mut rng, &asked, count));
        if format == Format::HFS {
            let asked: Vec<u64> = asked.into_iter().map(keys::packed).collect();
            let many = (0..MANY).map(|_| asked[rng.index(asked.len())]).collect();
            comparison.ask_at_once(&built.image, many);
        }
    }
}

/// Each with the number of keys to ask it for.
fn largest_of_hfs(seed: u64) -> Vec<(Built, usize)> {
    let only_map_nodes = build(&Plan { map_nodes: 65_535, ..Plan::tidy(9, &[]) });
    let deepest = build(&Plan::untidy(seed, &[1, 2, 9, 40, 200, 700, 1_400, 2_800]));
    vec![
        (samples::largest(), 40),
        (samples::largest_of(6_000), 300),
        (samples::three_level_large(), 300),
        (samples::needed_map_nodes(), 300),
        (deepest, 300),
        (only_map_nodes, 10),
    ]
}

fn largest_of_plus(format: Format, seed: u64) -> Vec<(Built, usize)> {
    let full = Plan::tidy_in(format, seed, &level_sizes(format, LONG / format.node_size));
    let half_free = level_sizes(format, LONG / format.node_size / 2);
    let free_nodes = LONG / format.node_size / 3;
    let untidy = Plan { free_nodes, ..Plan::untidy_in(format, seed, &half_free) };
    let map_nodes = LONG / format.node_size - 1;
    let only_map_nodes = Plan { map_nodes, ..Plan::tidy_in(format, 9, &[]) };
    vec![(build(&full), 20), (build(&untidy), 40), (build(&only_map_nodes), 10)]
}

/// The levels over so many leaves, root first, each with the fewest nodes.
fn level_sizes(format: Format, leaves: usize) -> Vec<usize> {
    let mut sizes = vec![leaves];
    while sizes[0] > 1 {
        sizes.insert(0, sizes[0].div_ceil(format.most_index_records()));
    }
    sizes
}

/// The same with faults, by the table and at random.
pub fn spoiled(comparison: &mut Comparison, format: Format, seed: u64) {
    let mut rng = Rng::new(seed);
    let sound = match format.edition {
        Edition::Hfs => vec![
            samples::largest_of(6_000),
            samples::three_level_large(),
            samples::needed_map_nodes(),
        ],
        Edition::HfsPlus => {
            let sizes = level_sizes(format, SPOILED / format.node_size);
            vec![build(&Plan { map_nodes: 2, ..Plan::untidy_in(format, seed, &sizes) })]
        }
    };
    for built in sound {
        spoil(comparison, &mut rng, &built);
    }
}

fn spoil(comparison: &mut Comparison, rng: &mut Rng, built: &Built) {
    let asked = keys::with_neighbours(built);
    for number in 1..=10 {
        let known = by_number(built, number);
        for _ in 0..12 {
            let mut image = built.image.clone();
            known[rng.index(known.len())].apply(&mut image);
            comparison.ask(&image, keys::some(rng, &asked, 1));
        }
    }
    for _ in 0..120 {
        let mut image = built.image.clone();
        for _ in 0..=rng.index(3) {
            change_a_field(rng, built.format, &mut image);
        }
        comparison.ask(&image, keys::some(rng, &asked, 2));
    }
}
