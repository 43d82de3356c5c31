//! Small images with one byte changed, at every place or at those where the fields are.

use super::{small, turns};
use crate::comparison::Comparison;
use crate::keys;
use images::by_hand::three_levels_by_hand_in;
use images::{build, Format, Key, Plan, Rng};

/// The values that fields have, beside those right beside a byte's own.
const USUAL: [u8; 6] = [0x00, 0x01, 0x02, 0x07, 0x0A, 0xFF];

/// So many of the usual values each byte of a random tree is set to.
const OF_USUAL: usize = 3;

/// In larger nodes than 512 bytes, one byte in so many of a random tree is changed.
const MOST_THINNED: usize = 8;

/// Every byte of the smallest images set to each of the 255 other values, and of a tree of three levels to
/// some of them; in HFS Plus to half as many, and in nodes larger than 512 bytes to fewer.
pub fn any_value(comparison: &mut Comparison, format: Format, seed: u64) {
    let mut rng = Rng::new(seed);
    let count = turns(format, format.by_edition(255, 128));
    for image in [small::empty_tree(format, 1), small::l1(format)] {
        change_each(comparison, &mut rng, format, image, 1, |rng, byte| others(rng, byte, count));
    }
    let image = three_levels_by_hand_in(format);
    let nodes = image.len() / format.node_size;
    let count = count.div_ceil(nodes);
    change_each(comparison, &mut rng, format, image, 1, |rng, byte| others(rng, byte, count));
}

/// So many of the 255 other values.
fn others(rng: &mut Rng, byte: u8, count: usize) -> Vec<u8> {
    let mut changes: Vec<u8> = (1..=255).collect();
    if count < changes.len() {
        rng.shuffle(&mut changes);
        changes.truncate(count);
    }
    changes.into_iter().map(|change| byte ^ change).collect()
}

/// Every byte of small images set to the values that fields have, and of random trees to some of these; in
/// larger nodes, whose bytes are more alike, not every byte.
pub fn some_values(comparison: &mut Comparison, format: Format, seed: u64) {
    let mut rng = Rng::new(seed);
    let most = format.most_leaf_records();
    for image in [small::leaf_with(format, most), small::map_node_linked_to_itself(format)] {
        change_each(comparison, &mut rng, format, image, 1, |_, byte| usual(byte));
    }
    let one_in = (format.node_size / 512).min(MOST_THINNED);
    for depth in 0..=4 {
        let plan = Plan { records_per_leaf: 1..=3, ..Plan::random_in(format, seed, depth, 3) };
        let image = build(&plan).image;
        change_each(comparison, &mut rng, format, image, one_in, |rng, byte| {
            let mut values = usual(byte);
            rng.shuffle(&mut values);
            values.truncate(OF_USUAL);
            values
        });
    }
}

fn usual(byte: u8) -> Vec<u8> {
    let beside = [byte.wrapping_add(1), byte.wrapping_sub(1), byte ^ 0x80];
    USUAL.into_iter().chain(beside).filter(|&value| value != byte).collect()
}

/// Sets every byte of the image, or one in so many, to each of its values, and asks for one key each time.
fn change_each(
    comparison: &mut Comparison,
    rng: &mut Rng,
    format: Format,
    mut image: Vec<u8>,
    one_in: usize,
    values: impl Fn(&mut Rng, u8) -> Vec<u8>,
) {
    let mut asked: Vec<Key> = keys::at_record_places(format, &image);
    asked.extend(keys::always());
    for at in places(format, image.len()) {
        if rng.index(one_in) != 0 {
            continue;
        }
        let byte = image[at];
        for value in values(rng, byte) {
            image[at] = value;
            comparison.ask(&image, [asked[rng.index(asked.len())]]);
        }
        image[at] = byte;
    }
}

/// Every byte of nodes of 512 bytes. In larger ones the first, up to the first bits of the header's
/// map, the last, and here and there one between.
fn places(format: Format, len: usize) -> impl Iterator<Item = usize> {
    let node_size = format.node_size;
    (0..len).filter(move |at| {
        let within = at % node_size;
        node_size == 512 || within < 256 || node_size - within <= 16 || at % 509 == 0
    })
}
