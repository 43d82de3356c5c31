//! Turns a plan of a volume into a sound catalog and a sound extents tree.

use super::fork::{Fork, DATA_FORK, RESOURCE_FORK};
use crate::build::{build_with_records, Built};
use crate::catalog::entry::{pair_bytes, put_file, DIRECTORY, DIRECTORY_THREAD, FILE, FILE_THREAD};
use crate::catalog::{self, build_with, CatalogPlan};
use crate::format::Format;
use crate::key::Key;
use crate::node::Record;
use crate::plan::Plan;
use crate::rng::Rng;
use crate::tree_key::TreeKey;

/// More files than other records.
const TYPES: [u8; 7] = [FILE, FILE, FILE, FILE, DIRECTORY, DIRECTORY_THREAD, FILE_THREAD];

/// A fork that stands in the catalog, under the key of its file.
#[derive(Clone, Debug)]
pub struct FileFork {
    pub key: catalog::Key,
    pub id: u32,
    pub fork_byte: u8,
    pub fork: Fork,
}

/// Both trees of a volume, and the forks that its catalog has.
pub struct Volume {
    pub catalog: catalog::Built,
    pub extents: Built,
    pub forks: Vec<FileFork>,
}

/// How far the extents tree is that of the catalog.
#[derive(Clone, Copy, Debug, PartialEq, Eq)]
pub enum Fit {
    /// Every later extent of every file is there, and nothing else.
    Whole,
    /// Some are missing, others belong to no file of the catalog, and files share their numbers.
    Partly,
}

/// The wishes for a generated volume.
#[derive(Clone, Debug)]
pub struct VolumePlan {
    pub catalog: CatalogPlan,
    pub fit: Fit,
}

impl VolumePlan {
    /// A catalog of the given depth; everything else is left to chance.
    pub fn random(seed: u64, depth: usize, widest: usize, fit: Fit) -> VolumePlan {
        let catalog = CatalogPlan::random(seed, depth, widest);
        VolumePlan { catalog: CatalogPlan { types: TYPES.to_vec(), ..catalog }, fit }
    }
}

/// Builds the images of a plan; the same plan always gives the same bytes.
pub fn build(plan: &VolumePlan) -> Volume {
    let seed = plan.catalog.shape.seed;
    let mut rng = Rng::new(seed ^ 0xB10C);
    let mut forks = Vec::new();
    let catalog = build_with(&plan.catalog, |records| {
        forks = put_forks(&mut rng, plan.fit, records);
    });
    let mut records = extents_records(&forks);
    if plan.fit == Fit::Partly {
        records = disturbed(&mut rng, records);
    }
    let level_sizes = any_levels(&mut rng, records.len());
    let shape = Plan { level_sizes, ..Plan::random(seed, 0, 1) };
    Volume { catalog, extents: build_with_records(&shape, records), forks }
}

/// Gives each file a number and two forks.
fn put_forks(rng: &mut Rng, fit: Fit, records: &mut [Record<catalog::Key>]) -> Vec<FileFork> {
    let mut files: Vec<_> = records.iter_mut().filter(|record| record.data[0] == FILE).collect();
    let ids = any_ids(rng, fit, files.len());
    let mut forks = Vec::new();
    for (record, id) in files.iter_mut().zip(ids) {
        let both = [Fork::any(rng), Fork::any(rng)];
        put_file(&mut record.data, id, [both[0].first, both[1].first]);
        forks.extend(file_forks(&record.key, id, both));
    }
    forks
}

/// The two forks of a file, the data fork first.
pub fn file_forks(key: &catalog::Key, id: u32, both: [Fork; 2]) -> impl Iterator<Item = FileFork> {
    let fork_bytes = [DATA_FORK, RESOURCE_FORK].into_iter();
    let key = key.clone();
    fork_bytes.zip(both).map(move |(fork_byte, fork)| FileFork {
        key: key.clone(),
        id,
        fork_byte,
        fork,
    })
}

/// So many file numbers in a random order, close together or apart, at either end or between.
fn any_ids(rng: &mut Rng, fit: Fit, count: usize) -> Vec<u32> {
    let step = [1, 1, 2, 1 << 16][rng.index(4)];
    let most = count as u32 * step;
    let first = [0, 16, u32::MAX - most][rng.index(3)];
    let mut ids: Vec<u32> = (1..=count as u32).map(|index| first + index * step).collect();
    if fit == Fit::Partly && count > 1 {
        ids[0] = ids[count - 1];
    }
    rng.shuffle(&mut ids);
    ids
}

/// The records of all later extents, ascending; of two under one key only the first.
pub fn extents_records(forks: &[FileFork]) -> Vec<Record> {
    let records = forks.iter().flat_map(|FileFork { id, fork_byte, fork, .. }| {
        fork.later.iter().map(|piece| Record {
            key: Key::new(*id, *fork_byte, piece.start.into()),
            data: pair_bytes(piece.pairs).to_vec(),
        })
    });
    ascending(records.collect())
}

/// The records without some, and with others right beside them or anywhere.
fn disturbed(rng: &mut Rng, records: Vec<Record>) -> Vec<Record> {
    let mut disturbed = Vec::new();
    for record in records {
        if rng.index(4) == 0 {
            disturbed.push(beside(rng, &record));
        }
        if rng.index(6) != 0 {
            disturbed.push(record);
        }
    }
    for _ in 0..rng.index(6) {
        let key = Key::any(rng, Format::HFS);
        disturbed.push(Record { key, data: Key::any_data(rng, Format::HFS) });
    }
    ascending(disturbed)
}

/// Other data under a key with another file, fork or start block.
fn beside(rng: &mut Rng, record: &Record) -> Record {
    let Key { file, fork, start } = record.key;
    let key = match rng.index(4) {
        0 => Key::new(file.wrapping_add(1), fork, start),
        1 => Key::new(file.wrapping_sub(1), fork, start),
        2 => Key::new(file, !fork, start),
        _ => Key::new(file, fork, rng.index(65_536) as u32),
    };
    Record { key, data: Key::any_data(rng, Format::HFS) }
}

fn ascending(mut records: Vec<Record>) -> Vec<Record> {
    records.sort_by_key(|record| record.key);
    records.dedup_by_key(|record| record.key);
    records
}

/// The levels of some tree with so many records, root first; with the narrowest nodes there may be eight.
fn any_levels(rng: &mut Rng, records: usize) -> Vec<usize> {
    if records == 0 {
        return Vec::new();
    }
    let most_in_leaf = Format::HFS.most_leaf_records() as u64;
    let mut sizes = vec![records.div_ceil(rng.between(1, most_in_leaf) as usize)];
    let least_children = if sizes[0] <= 128 { 2 } else { 4 };
    let children = rng.between(least_children, Format::HFS.most_index_records() as u64) as usize;
    while sizes[0] > 1 {
        sizes.insert(0, sizes[0].div_ceil(children));
    }
    sizes
}
