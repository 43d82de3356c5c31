//! One question about a block of a file, and what is shown when two readers differ on it.

use crate::seed::{seed, SEED_VARIABLE};
use crate::shown::show;
use images::catalog::Key;
use std::fmt::Debug;

/// A catalog key, a fork byte and a file block.
#[derive(Clone, Debug)]
pub struct Asked {
    pub key: Key,
    pub fork: u8,
    pub block: u16,
}

#[derive(Clone, Copy)]
pub struct BlockQuestion<'a> {
    /// The family of volumes that it belongs to.
    pub family: &'static str,
    pub catalog: &'a [u8],
    pub extents: &'a [u8],
    pub asked: &'a Asked,
    /// How many working bytes are lent for each image.
    pub lent: [usize; 2],
}

impl BlockQuestion<'_> {
    /// Stops the run unless the reference says or leaves what the proved reader does.
    pub fn same<T: Debug + PartialEq>(&self, about: &str, got: &T, said: &T) {
        if got != said {
            let BlockQuestion { family, catalog, extents, asked, lent } = self;
            let catalog = show(&format!("{family}_catalog"), catalog);
            let extents = show(&format!("{family}_extents"), extents);
            let seed = seed();
            panic!(
                "{family}: the readers differ on {asked:?}, {lent:?} working bytes, {about}\n  \
                 proved: {got:?}\n  reference: {said:?}\n  \
                 catalog: {catalog}\n  extents: {extents}\n  {SEED_VARIABLE}={seed}"
            );
        }
    }
}
