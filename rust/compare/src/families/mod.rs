//! The images that are compared, by kind; every kind in every format.

mod any_bytes;
mod bench;
mod large;
mod lengths;
mod map_nodes;
mod other_forms;
mod single_bytes;
mod small;
mod sound;
mod spoiled;

use crate::comparison::Comparison;
use images::Format;

pub use spoiled::change_a_field;

/// A kind of images, with what makes and compares them in a format from a seed.
pub struct Family {
    pub name: &'static str,
    pub run: fn(&mut Comparison, Format, u64),
}

/// Every kind, those that take longest first.
pub const FAMILIES: [Family; 14] = [
    Family { name: "one_byte_any_value", run: single_bytes::any_value },
    Family { name: "one_byte_some_values", run: single_bytes::some_values },
    Family { name: "largest", run: large::largest },
    Family { name: "large_spoiled", run: large::spoiled },
    Family { name: "spoiled_by_the_table", run: spoiled::by_the_table },
    Family { name: "spoiled_at_random", run: spoiled::at_random },
    Family { name: "sound", run: sound::random },
    Family { name: "lengths", run: lengths::lengths },
    Family { name: "every_size", run: sound::every_size },
    Family { name: "other_forms", run: other_forms::other_forms },
    Family { name: "deep", run: sound::deep },
    Family { name: "any_bytes", run: any_bytes::any_bytes },
    Family { name: "needed_map_nodes", run: map_nodes::needed },
    Family { name: "bench", run: bench::bench },
];

/// Fewer turns than this would be no comparison.
const LEAST_TURNS: usize = 4;

/// As many turns as read about as many bytes as `at_512` turns do with nodes of 512 bytes.
fn turns(format: Format, at_512: usize) -> usize {
    (at_512 * 512 / format.node_size).max(LEAST_TURNS)
}
