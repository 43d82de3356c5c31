//! Trees with one fault or a few, and with changes that are none.

use super::turns;
use crate::comparison::Comparison;
use crate::keys;
use images::spoil::{by_number, harmless, Spoiling};
use images::{build, samples, Built, Format, Plan, Rng};

/// A tree of larger nodes is spoiled in as many ways as this many bytes have room for it.
const MOST_BYTES: usize = 40_000_000;

/// Of each number at least so many faults are tried, where there are so many.
const LEAST_OF_NUMBER: usize = 12;

/// Every fault that the table has, alone and with one other; in nodes larger than 512 bytes, some of
/// each number.
pub fn by_the_table(comparison: &mut Comparison, format: Format, seed: u64) {
    let mut rng = Rng::new(seed);
    for depth in 0..=8 {
        for turn in 0..turns(format, 4) as u64 {
            let built = build(&Plan::random_in(format, seed + turn, depth, 5));
            each_fault(comparison, &mut rng, &built);
        }
    }
    let samples = [samples::falling_map_nodes(), samples::two_level_plus()];
    for built in samples.iter().filter(|built| built.format == format) {
        each_fault(comparison, &mut rng, built);
    }
}

fn each_fault(comparison: &mut Comparison, rng: &mut Rng, built: &Built) {
    let most = match built.format.node_size {
        512 => usize::MAX,
        _ => MOST_BYTES / built.image.len() / 10,
    };
    let of_number = |number| match number {
        0 => harmless(built),
        _ => by_number(built, number),
    };
    let known: Vec<Spoiling> =
        (0..=10).flat_map(|number| chosen(rng, of_number(number), most)).collect();
    let asked = keys::with_neighbours(built);
    for spoiling in &known {
        let mut image = built.image.clone();
        spoiling.apply(&mut image);
        comparison.ask(&image, keys::some(rng, &asked, 2));
        let other = &known[rng.index(known.len())];
        // A changed length would leave the other fault no room.
        if other.number != 1 && spoiling.number != 1 {
            other.apply(&mut image);
            comparison.ask(&image, keys::some(rng, &asked, 1));
        }
    }
}

/// All of them, or as many as there is room for.
fn chosen(rng: &mut Rng, mut known: Vec<Spoiling>, most: usize) -> Vec<Spoiling> {
    let most = most.max(LEAST_OF_NUMBER);
    if known.len() > most {
        rng.shuffle(&mut known);
        known.truncate(most);
    }
    known
}

/// Trees of a hundred nodes and less with a few bytes changed, mostly where fields are.
pub fn at_random(comparison: &mut Comparison, format: Format, seed: u64) {
    let mut rng = Rng::new(seed);
    let mut samples = vec![
        samples::two_level(),
        samples::three_level(),
        samples::longest_listed(),
        samples::two_level_plus(),
        samples::three_level_plus(),
    ];
    samples.retain(|built| built.format == format);
    for turn in 0..turns(format, 6_000) {
        let random;
        let built = match samples.get(turn % 6) {
            Some(sample) => sample,
            None => {
                random = build(&Plan::random_in(format, seed + turn as u64, turn % 9, 6));
                &random
            }
        };
        let asked = keys::with_neighbours(built);
        let mut image = built.image.clone();
        for _ in 0..=rng.index(4) {
            change_a_field(&mut rng, format, &mut image);
        }
        comparison.ask(&image, keys::some(&mut rng, &asked, 4));
    }
}

/// Changes a byte that is a field more often than not.
pub fn change_a_field(rng: &mut Rng, format: Format, image: &mut [u8]) {
    let size = format.node_size;
    let node = rng.index(image.len() / size) * size;
    let within = [rng.index(14), rng.index(60), size - 1 - rng.index(60), rng.index(size)];
    let at = node + within[rng.index(4)];
    image[at] = [rng.next_u64() as u8, rng.index(12) as u8, image[at] ^ 1][rng.index(3)];
}
