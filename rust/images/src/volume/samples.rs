//! Generated volumes with names, for tests and measurements.

use super::build::{build, extents_records, file_forks, FileFork, Fit, Volume, VolumePlan};
use super::fork::Fork;
use crate::build::build_with_records;
use crate::catalog::entry::{put_file, FILE};
use crate::catalog::{self, build_with, CatalogPlan};
use crate::format::Format;
use crate::largest::largest_plan;
use crate::node::Record;
use crate::plan::Plan;
use crate::rng::Rng;

/// The lowest number of a file of the user.
const FIRST_FILE: u32 = 16;

/// Blocks in a pair of a large volume; three of them in each of the few hundred records of a fork are
/// fewer than 65,536.
const BLOCKS: u16 = 40;

/// A catalog of two levels, whose extents fit.
pub fn two_level() -> Volume {
    build(&VolumePlan::random(31, 2, 9, Fit::Whole))
}

/// Catalog and extents of three levels, in which every fork has about ten extents records and all pairs
/// have blocks.
pub fn regular() -> Volume {
    let catalog = CatalogPlan::tidy(33, &[1, 2, 12]);
    let extents = Plan { shuffled: true, ..Plan::tidy(33, &[1, 2, 36]) };
    with_regular_forks(catalog, extents)
}

/// The largest extents tree there is, under a catalog of so many nodes; both in a random order.
pub fn largest_under(catalog_nodes: usize) -> Volume {
    let catalog = CatalogPlan::mixed(CatalogPlan::largest(6, catalog_nodes));
    let extents = Plan { shuffled: true, ..largest_plan(Format::HFS, 5, 65_536) };
    with_regular_forks(catalog, extents)
}

/// A catalog in which all records are files, and an extents tree with full leaves, of which each fork
/// has its share.
fn with_regular_forks(catalog: CatalogPlan, extents: Plan) -> Volume {
    let leaves = extents.level_sizes.last().copied().unwrap_or(0);
    let record_count = leaves * Format::HFS.most_leaf_records();
    let plan = CatalogPlan { types: vec![FILE], ..catalog };
    let mut forks = Vec::new();
    let catalog = build_with(&plan, |records| forks = put_regular(records, record_count));
    let extents = build_with_records(&extents, extents_records(&forks));
    Volume { catalog, extents, forks }
}

/// Gives each file a number and two forks, which have so many extents records in all.
fn put_regular(files: &mut [Record<catalog::Key>], record_count: usize) -> Vec<FileFork> {
    let mut rng = Rng::new(32);
    let fork_count = 2 * files.len();
    let mut forks = Vec::new();
    for (file, id) in files.iter_mut().zip(FIRST_FILE..) {
        let both = [0, 1].map(|fork| {
            let later = share_of(record_count, fork_count, forks.len() + fork);
            Fork::regular(&mut rng, later, BLOCKS)
        });
        put_file(&mut file.data, id, [both[0].first, both[1].first]);
        forks.extend(file_forks(&file.key, id, both));
    }
    forks
}

/// How many of the items go to one of the parts, so that all parts together get them all.
fn share_of(items: usize, parts: usize, part: usize) -> usize {
    items / parts + usize::from(part < items % parts)
}
