//! The volumes that are compared, by kind.

mod any_bytes;
mod bench;
mod large;
mod lengths;
mod single_bytes;
mod sound;
mod spoiled;

use super::comparison::BlockComparison;

/// A kind of volumes, with what makes and compares them from a seed.
pub struct BlockFamily {
    pub name: &'static str,
    pub run: fn(&mut BlockComparison, u64),
}

/// Every kind, those that take longest first.
pub const BLOCK_FAMILIES: [BlockFamily; 9] = [
    BlockFamily { name: "block_largest", run: large::largest },
    BlockFamily { name: "block_spoiled_by_the_table", run: spoiled::by_the_table },
    BlockFamily { name: "block_spoiled_at_random", run: spoiled::at_random },
    BlockFamily { name: "block_one_byte", run: single_bytes::one_byte },
    BlockFamily { name: "block_sound", run: sound::fitting },
    BlockFamily { name: "block_sound_in_part", run: sound::fitting_in_part },
    BlockFamily { name: "block_lengths", run: lengths::lengths },
    BlockFamily { name: "block_any_bytes", run: any_bytes::any_bytes },
    BlockFamily { name: "block_bench", run: bench::bench },
];
