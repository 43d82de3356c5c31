//! Sound volumes at the boundaries of all their forks, or at as many as a long one can be asked for.

use crate::block::asked;
use crate::block::comparison::BlockComparison;
use images::volume::{build, samples, Fit, VolumePlan};
use images::Rng;

/// Catalogs and extents that belong together.
pub fn fitting(comparison: &mut BlockComparison, seed: u64) {
    random(comparison, seed, Fit::Whole);
    let mut rng = Rng::new(seed);
    for volume in [samples::two_level(), samples::regular()] {
        let asked = asked::affordable(&mut rng, &volume);
        comparison.ask(&volume.catalog.image, &volume.extents.image, asked);
    }
}

/// Those that do so only in part.
pub fn fitting_in_part(comparison: &mut BlockComparison, seed: u64) {
    random(comparison, seed, Fit::Partly);
}

/// Random volumes with catalogs of depth 0 to 8, the deepest there are.
fn random(comparison: &mut BlockComparison, seed: u64, fit: Fit) {
    let mut rng = Rng::new(seed);
    for depth in 0..=8 {
        for turn in 0..if depth <= 4 { 120 } else { 20 } {
            let volume = build(&VolumePlan::random(seed + turn, depth, 9, fit));
            let asked = asked::affordable(&mut rng, &volume);
            comparison.ask(&volume.catalog.image, &volume.extents.image, asked);
        }
    }
}
