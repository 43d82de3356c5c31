//! Which random choices a run makes.

use std::env;

/// The variable that sets the seed.
pub const SEED_VARIABLE: &str = "HFS_COMPARE_SEED";

const DEFAULT_SEED: u64 = 20_240_229;

/// The seed of this run: the same unless the environment sets another.
pub fn seed() -> u64 {
    match env::var(SEED_VARIABLE) {
        Ok(text) => text.parse().unwrap_or_else(|_| panic!("{SEED_VARIABLE}={text} is no number")),
        Err(_) => DEFAULT_SEED,
    }
}
