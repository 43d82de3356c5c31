//! Small catalogs with one byte changed, at every place.

use crate::catalog::comparison::CatalogComparison;
use crate::catalog::keys;
use images::catalog::{bench, build, CatalogPlan, Key};
use images::{Plan, Rng};

/// Every byte set to each of the 255 other values.
pub fn any_value(comparison: &mut CatalogComparison, seed: u64) {
    let mut rng = Rng::new(seed);
    for image in [bench::empty_tree(1), bench::cartridge(), bench::two_leaves()] {
        change_each(comparison, &mut rng, image, |byte| {
            (1..=255).map(|change| byte ^ change).collect()
        });
    }
}

/// Every byte set to a few values that fields have.
pub fn some_values(comparison: &mut CatalogComparison, seed: u64) {
    let mut rng = Rng::new(seed);
    let mut sound = vec![bench::leaf_with(8), bench::full_leaf(7), bench::index_with(11)];
    for depth in 0..=4 {
        let mut plan = CatalogPlan::random(seed, depth, 3);
        plan.shape = Plan { records_per_leaf: 1..=4, ..plan.shape };
        sound.push(build(&plan).image);
    }
    for image in sound {
        change_each(comparison, &mut rng, image, |byte| {
            // Case, types, lengths of keys and names, and what is right beside.
            let near = [byte ^ 0x20, byte ^ 0x80, byte.wrapping_add(1), byte.wrapping_sub(1)];
            let mut values = vec![0x00, 0x01, 0x02, 0x03, 0x04, 0x05, 0x07, 0x1F, 0x20, 0x25, 0xFF];
            values.extend(near);
            values.retain(|&value| value != byte);
            values
        });
    }
}

/// Sets every byte of the image to each of its values, and asks for one key each time.
fn change_each(
    comparison: &mut CatalogComparison,
    rng: &mut Rng,
    mut image: Vec<u8>,
    values: impl Fn(u8) -> Vec<u8>,
) {
    let mut asked: Vec<Key> = keys::at_record_places(&image);
    asked.extend(keys::always());
    for at in 0..image.len() {
        let byte = image[at];
        for value in values(byte) {
            image[at] = value;
            comparison.ask(&image, [asked[rng.index(asked.len())].clone()]);
        }
        image[at] = byte;
    }
}
