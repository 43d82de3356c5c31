//! Generated catalogs with names, for tests and measurements.

use super::build::{build, Built, CatalogPlan};
use crate::plan::Plan;

/// Two levels in 16 nodes, untidy in every allowed way.
pub fn two_level() -> Built {
    let mut plan = CatalogPlan::untidy(21, &[1, 9]);
    plan.shape = Plan { map_nodes: 1, free_nodes: 4, ..plan.shape };
    build(&plan)
}

/// Three levels in 40 nodes, with two map nodes that are not needed.
pub fn three_level() -> Built {
    let mut plan = CatalogPlan::untidy(22, &[1, 4, 24]);
    plan.shape = Plan { map_nodes: 2, free_nodes: 8, ..plan.shape };
    build(&plan)
}

/// The most leaf records that an image can hold: eight threads in each leaf of 65,536 nodes.
///
/// The header and 17 map nodes leave 65,518 nodes; 59,559 leaves need 5,415 + 493 + 45 + 5 + 1 index
/// nodes, which is just that, and another leaf would need one node more.
pub fn largest() -> Built {
    build(&CatalogPlan::threads(CatalogPlan::largest(5, 65_536)))
}

/// The same tree with its nodes in the order of their levels.
pub fn largest_in_order() -> Built {
    let shape = Plan { shuffled: false, ..CatalogPlan::largest(5, 65_536) };
    build(&CatalogPlan::threads(shape))
}

/// As many nodes and leaves, with records of every type and as many of them as fit.
pub fn largest_mixed() -> Built {
    largest_mixed_of(65_536)
}

/// The same of exactly so many nodes.
pub fn largest_mixed_of(nodes: usize) -> Built {
    build(&CatalogPlan::mixed(CatalogPlan::largest(6, nodes)))
}
