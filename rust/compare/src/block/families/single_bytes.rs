//! A small volume with one byte changed, at every place of both images.

use crate::block::asked::in_any_bytes;
use crate::block::comparison::BlockComparison;
use images::volume::bench::{cartridge_catalog, cartridge_extents};
use images::Rng;

/// So many of its 255 other values each byte is set to.
const VALUES: usize = 12;

pub fn one_byte(comparison: &mut BlockComparison, seed: u64) {
    let mut rng = Rng::new(seed);
    let sound = [cartridge_catalog(), cartridge_extents()];
    for changed in [0, 1] {
        for at in 0..sound[changed].len() {
            for value in values(&mut rng, sound[changed][at]) {
                let mut images = sound.clone();
                images[changed][at] = value;
                let asked = in_any_bytes(&mut rng, &sound[0], 2);
                comparison.ask(&images[0], &images[1], asked);
            }
        }
    }
}

/// What is right beside, a bit off, and any others.
fn values(rng: &mut Rng, byte: u8) -> Vec<u8> {
    let mut values = vec![byte.wrapping_add(1), byte.wrapping_sub(1), byte ^ 0x80, !byte];
    while values.len() < VALUES {
        values.push(byte ^ rng.between(1, 255) as u8);
    }
    values
}
