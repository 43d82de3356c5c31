//! Generated images with names, for tests and measurements.

use crate::build::{build, Built};
use crate::format::Format;
use crate::largest::largest_plan;
use crate::plan::Plan;

/// Two levels in 64 nodes, untidy in every allowed way.
pub fn two_level() -> Built {
    build(&Plan { free_nodes: 28, ..Plan::untidy(2, &[1, 34]) })
}

/// Three levels in 120 nodes, with a map node that is not needed.
pub fn three_level() -> Built {
    build(&Plan { map_nodes: 1, free_nodes: 5, ..Plan::untidy(3, &[1, 7, 105]) })
}

/// Two levels in 17 nodes, with four map nodes whose numbers fall along the chain.
pub fn falling_map_nodes() -> Built {
    build(&Plan {
        records_per_leaf: 1..=6,
        map_nodes: 4,
        free_nodes: 6,
        ..Plan::untidy(39, &[1, 5])
    })
}

/// Three levels in 128 nodes, which is the longest image that is listed.
pub fn longest_listed() -> Built {
    build(&Plan { free_nodes: 14, ..Plan::untidy(6, &[1, 4, 108]) })
}

/// The widest three levels there are, in 6,000 nodes with the map node they need.
pub fn three_level_large() -> Built {
    build(&Plan {
        free_nodes: 6_000 - 2 - 1 - 35 - 1_225,
        shuffled: true,
        old_garbage: true,
        ..Plan::tidy(4, &[1, 35, 1_225])
    })
}

/// Three levels in 12,000 nodes, with the three map nodes that these need.
///
/// The header and two map nodes have 2,048 + 2 x 3,952 = 9,952 bits.
pub fn needed_map_nodes() -> Built {
    build(&Plan { free_nodes: 12_000 - 4 - 1 - 8 - 200, ..Plan::untidy(7, &[1, 8, 200]) })
}

/// The most leaf records that an image can hold: 63,644 full leaves in 65,536 nodes.
///
/// The header has 2,048 map bits and 16 map nodes have 63,232, which is 256 short, so there are 17.
/// With the header they leave 65,518 nodes; 63,644 leaves need 1,819 + 52 + 2 + 1 index nodes on
/// four levels, which is just that, and 63,645 leaves would need one node more.
pub fn largest() -> Built {
    largest_of(65_536)
}

/// The same tree with its nodes in the order of their levels.
pub fn largest_in_order() -> Built {
    build(&largest_plan(Format::HFS, 5, 65_536))
}

/// The most leaf records that exactly so many nodes can hold, all in full leaves.
///
/// - 1: only the header, so that the tree is empty.
/// - 100: the header leaves 99; 95 leaves need 3 + 1 index nodes.
/// - 6,000: the header and one map node, which have just 6,000 bits, leave 5,998; 5,825 leaves need
///   167 + 5 + 1 index nodes.
///
/// Each of these is just what is left, and another leaf would need one node more.
pub fn largest_of(nodes: usize) -> Built {
    build(&Plan { shuffled: true, ..largest_plan(Format::HFS, 5, nodes) })
}

/// An HFS Plus tree of two levels in 20 nodes of 4,096 bytes, untidy in every allowed way.
pub fn two_level_plus() -> Built {
    let format = Format::plus(4_096);
    build(&Plan { map_nodes: 2, free_nodes: 6, ..Plan::untidy_in(format, 8, &[1, 10]) })
}

/// An HFS Plus tree of three levels in 40 nodes of 512 bytes, with a map node that is not needed.
pub fn three_level_plus() -> Built {
    let format = Format::plus(512);
    build(&Plan { map_nodes: 1, free_nodes: 6, ..Plan::untidy_in(format, 9, &[1, 4, 27]) })
}

/// The most leaf records that exactly so many nodes of 4,096 bytes can hold in HFS Plus.
///
/// 8,192 nodes have 33,554,432 bytes; the header has bits for 30,720, so they need no map node.
pub fn largest_plus(nodes: usize) -> Built {
    build(&Plan { shuffled: true, ..largest_plan(Format::plus(4_096), 5, nodes) })
}
