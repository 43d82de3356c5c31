//! The largest extents tree there is, under a catalog of thousands of nodes.

use crate::block::asked;
use crate::block::comparison::BlockComparison;
use crate::block::question::Asked;
use images::volume::samples;
use images::Rng;

const CATALOG_NODES: usize = 4_000;

/// So many blocks are asked for, in the file record and in extents records.
const BLOCKS: usize = 16;

pub fn largest(comparison: &mut BlockComparison, seed: u64) {
    let mut rng = Rng::new(seed);
    let volume = samples::largest_under(CATALOG_NODES);
    let asked: Vec<Asked> = (0..BLOCKS)
        .map(|_| {
            let fork = &volume.forks[rng.index(volume.forks.len())];
            let later = &fork.fork.later;
            // One block more than the last piece has, and as many as the file record has.
            let end = later.last().map_or(0, |piece| u32::from(piece.start) + piece.blocks());
            let block = rng.index(end as usize + 2) as u16;
            Asked { key: fork.key.clone(), fork: fork.fork_byte, block }
        })
        .collect();
    let asked = asked::some(&mut rng, &asked, BLOCKS);
    comparison.ask(&volume.catalog.image, &volume.extents.image, asked);
}
