//! The volume of the samples: its first blocks and others, under every fork byte and names of every length.

use crate::block::comparison::BlockComparison;
use crate::block::question::Asked;
use images::catalog::Key;
use images::volume::bench::{cartridge_catalog, cartridge_extents};

/// What the catalog has, one of them in another case.
const KEYS: [(u32, &[u8]); 5] =
    [(1, b"Cartridge"), (2, b""), (2, b"Heights"), (2, b"hEIGHTS"), (2, b"Levels")];

pub fn bench(comparison: &mut BlockComparison, _: u64) {
    let (catalog, extents) = (cartridge_catalog(), cartridge_extents());
    for (parent, name) in KEYS {
        let ask = |fork, block| Asked { key: Key::new(parent, name), fork, block };
        for fork in [0x00, 0xFF] {
            let blocks = (0..400).chain((400..65_000).step_by(251)).chain(65_000..=65_535);
            comparison.ask(&catalog, &extents, blocks.map(|block| ask(fork, block)));
        }
        comparison.ask(&catalog, &extents, (0x00..=0xFF).map(|fork| ask(fork, 5)));
    }
    let of_length =
        |length: usize| Asked { key: Key::new(2, &vec![b'H'; length]), fork: 0x00, block: 0 };
    comparison.ask(&catalog, &extents, (0..=300).map(of_length));
}
