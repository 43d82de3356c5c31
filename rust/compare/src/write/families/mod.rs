//! The rows that are laid down, by kind.

mod any_bytes;
mod counts;
mod large;
mod lengths;
mod map_nodes;
mod single_bytes;
mod spoiled;

use super::comparison::WriteComparison;

/// A kind of rows and targets, with what makes and compares them from a seed.
pub struct WriteFamily {
    pub name: &'static str,
    pub run: fn(&mut WriteComparison, u64),
}

/// Every kind, those that take longest first.
pub const WRITE_FAMILIES: [WriteFamily; 8] = [
    WriteFamily { name: "write_map_nodes", run: map_nodes::map_nodes },
    WriteFamily { name: "write_largest", run: large::largest },
    WriteFamily { name: "write_counts", run: counts::every_count },
    WriteFamily { name: "write_random", run: counts::random },
    WriteFamily { name: "write_lengths", run: lengths::lengths },
    WriteFamily { name: "write_spoiled", run: spoiled::spoiled },
    WriteFamily { name: "write_one_byte", run: single_bytes::one_byte },
    WriteFamily { name: "write_any_bytes", run: any_bytes::any_bytes },
];
