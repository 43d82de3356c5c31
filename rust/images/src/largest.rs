//! Which tree fills a number of nodes with the most full leaves.

use crate::format::Format;
use crate::plan::Plan;

/// A plan of exactly `nodes` nodes, at least one, with the fewest map nodes and the most leaves.
pub fn largest_plan(format: Format, seed: u64, nodes: usize) -> Plan {
    let map_nodes = map_nodes_for(format, nodes);
    let room = nodes - 1 - map_nodes;
    let level_sizes = largest_tree(room, format.most_index_records());
    let free_nodes = room - level_sizes.iter().sum::<usize>();
    Plan { map_nodes, free_nodes, ..Plan::tidy_in(format, seed, &level_sizes) }
}

/// The fewest map nodes that have, with the header, a bit for each of so many nodes.
pub fn map_nodes_for(format: Format, nodes: usize) -> usize {
    let beyond_header = nodes.saturating_sub(format.header_bits());
    beyond_header.div_ceil(format.map_node_bits())
}

/// The levels of the tree with the most leaves that the room allows, root first.
fn largest_tree(room: usize, most_children: usize) -> Vec<usize> {
    let trees = (0..=room).rev().map(|leaves| lowest_tree_over(leaves, most_children));
    let mut fitting = trees.filter(|level_sizes| level_sizes.iter().sum::<usize>() <= room);
    fitting.next().expect("no leaves need no room")
}

/// The levels over a number of leaves, root first, each with the fewest nodes.
pub fn lowest_tree_over(leaves: usize, most_children: usize) -> Vec<usize> {
    let mut level_sizes = Vec::new();
    let mut size = leaves;
    while size > 1 {
        level_sizes.push(size);
        size = size.div_ceil(most_children);
    }
    // The last size is the root's, or 0 where there are no leaves.
    level_sizes.extend((size == 1).then_some(1));
    level_sizes.reverse();
    level_sizes
}
