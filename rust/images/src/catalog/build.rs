//! Turns a plan of a catalog into a sound image.

use super::entry::{random_data, DIRECTORY_THREAD, FILE_THREAD, TYPES};
use super::key::{Key, MOST_NAME};
use super::names::ascending_keys;
use crate::build::lay_out;
use crate::format::Format;
use crate::largest::largest_plan;
use crate::node::{fit_in_leaf, Record};
use crate::plan::Plan;
use crate::rng::Rng;
use crate::shape::{consecutive, share_nodes};

/// A sound image of a catalog and what it holds.
pub type Built = crate::build::Built<Key>;

/// The wishes for a generated catalog: those for its shape, in which a leaf gets as many of the wanted
/// records as fit, and what its records are to be.
#[derive(Clone, Debug)]
pub struct CatalogPlan {
    pub shape: Plan,
    pub longest_name: usize,
    pub types: Vec<u8>,
}

impl CatalogPlan {
    /// Records of every type, with names of every length.
    pub fn mixed(shape: Plan) -> CatalogPlan {
        CatalogPlan { shape, longest_name: MOST_NAME, types: TYPES.to_vec() }
    }

    /// Threads with short names, of which eight fit in a leaf.
    pub fn threads(shape: Plan) -> CatalogPlan {
        let types = vec![DIRECTORY_THREAD, FILE_THREAD];
        CatalogPlan { shape, longest_name: 7, types }
    }

    /// A tidy tree with leaves as full as its records allow.
    pub fn tidy(seed: u64, level_sizes: &[usize]) -> CatalogPlan {
        CatalogPlan::mixed(Plan::tidy_in(Format::CATALOG, seed, level_sizes))
    }

    /// The same in an untidy image.
    pub fn untidy(seed: u64, level_sizes: &[usize]) -> CatalogPlan {
        CatalogPlan::mixed(Plan::untidy_in(Format::CATALOG, seed, level_sizes))
    }

    /// A plan of the given depth in which everything else is left to chance.
    pub fn random(seed: u64, depth: usize, widest: usize) -> CatalogPlan {
        let shape = Plan::random_in(Format::CATALOG, seed, depth, widest);
        let mut rng = Rng::new(!seed ^ 0xCA7A);
        match rng.index(3) {
            0 => CatalogPlan::threads(shape),
            1 => {
                CatalogPlan { longest_name: rng.index(MOST_NAME + 1), ..CatalogPlan::mixed(shape) }
            }
            _ => CatalogPlan::mixed(shape),
        }
    }

    /// The shape of exactly so many nodes with the most leaves, in a random order.
    pub fn largest(seed: u64, nodes: usize) -> Plan {
        Plan { shuffled: true, ..largest_plan(Format::CATALOG, seed, nodes) }
    }
}

/// Builds the image of a plan; the same plan always gives the same bytes.
pub fn build(plan: &CatalogPlan) -> Built {
    build_with(plan, |_| ())
}

/// The same image after a change of the data of its records, which keeps their types.
pub fn build_with(plan: &CatalogPlan, change: impl FnOnce(&mut [Record<Key>])) -> Built {
    let mut rng = Rng::new(plan.shape.seed);
    let groups = share_nodes(&mut rng, &plan.shape);
    let (mut records, counts) = fill_leaves(&mut rng, plan);
    change(&mut records);
    lay_out(&mut rng, &plan.shape, groups, consecutive(&counts), records)
}

/// The records of all leaves, and how many each of them has.
fn fill_leaves(rng: &mut Rng, plan: &CatalogPlan) -> (Vec<Record<Key>>, Vec<usize>) {
    let leaves = plan.shape.level_sizes.last().copied().unwrap_or(0);
    let (least, most) = plan.shape.records_per_leaf.clone().into_inner();
    let keys = ascending_keys(rng, leaves * most, plan.longest_name);
    let mut keys = keys.into_iter();
    let mut records = Vec::new();
    let mut counts = Vec::new();
    for _ in 0..leaves {
        let wanted = rng.between(least as u64, most as u64) as usize;
        let leaf = fill_leaf(rng, plan, keys.by_ref().take(wanted));
        counts.push(leaf.len());
        records.extend(leaf);
    }
    (records, counts)
}

/// Records under the keys, as many as fit; the others are left out.
fn fill_leaf(
    rng: &mut Rng,
    plan: &CatalogPlan,
    keys: impl Iterator<Item = Key>,
) -> Vec<Record<Key>> {
    let mut leaf: Vec<Record<Key>> = Vec::new();
    for key in keys {
        let data_type = plan.types[rng.index(plan.types.len())];
        let data = random_data(rng, data_type);
        leaf.push(Record { key, data });
        if !fit_in_leaf(Format::CATALOG, &leaf) {
            leaf.pop();
        }
    }
    leaf
}
