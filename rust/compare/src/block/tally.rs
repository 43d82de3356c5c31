//! How many blocks were asked for, and what was answered.

use hfs_btree::block::{Image, Mapping};
use std::collections::BTreeMap;
use std::ops::AddAssign;

/// The numbers that can concern the catalog.
const OF_CATALOG: [u32; 16] = [0, 1, 2, 3, 4, 5, 6, 7, 8, 9, 10, 11, 12, 16, 18, 24];

/// The numbers that can concern the extents.
const OF_EXTENTS: [u32; 14] = [0, 1, 2, 3, 4, 5, 6, 7, 8, 9, 10, 16, 17, 18];

#[derive(Clone, Debug, Default)]
pub struct BlockTally {
    /// Pairs of a catalog and an extents image.
    pub volumes: u64,
    /// Blocks that were asked for, each once with enough working bytes and most once with too few.
    pub blocks: u64,
    /// Images for which fewer working bytes were lent than needed, just enough, and more.
    pub too_few: u64,
    pub enough: u64,
    pub more: u64,
    of_catalog: BTreeMap<u32, u64>,
    of_extents: BTreeMap<u32, u64>,
}

impl BlockTally {
    pub fn count_answer(&mut self, said: &Mapping) {
        let of_image = match said.image {
            Image::Catalog => &mut self.of_catalog,
            Image::Extents => &mut self.of_extents,
        };
        *of_image.entry(said.answer.number()).or_default() += 1;
    }

    pub fn count_lent(&mut self, lent: usize, needed: usize) {
        let count = match lent {
            _ if lent < needed => &mut self.too_few,
            _ if lent == needed => &mut self.enough,
            _ => &mut self.more,
        };
        *count += 1;
    }

    /// How often each number was answered, of the catalog and of the extents.
    pub fn answers(&self) -> [(&'static str, &BTreeMap<u32, u64>); 2] {
        [("catalog", &self.of_catalog), ("extents", &self.of_extents)]
    }

    /// Stops the run unless each number was answered of each image that it can concern, and no other.
    pub fn assert_every_answer(&self) {
        let numbers = |counts: &BTreeMap<u32, u64>| counts.keys().copied().collect::<Vec<u32>>();
        assert_eq!(numbers(&self.of_catalog), OF_CATALOG, "answers of the catalog");
        assert_eq!(numbers(&self.of_extents), OF_EXTENTS, "answers of the extents");
    }
}

impl AddAssign<&BlockTally> for BlockTally {
    fn add_assign(&mut self, other: &BlockTally) {
        self.volumes += other.volumes;
        self.blocks += other.blocks;
        self.too_few += other.too_few;
        self.enough += other.enough;
        self.more += other.more;
        add_counts(&mut self.of_catalog, &other.of_catalog);
        add_counts(&mut self.of_extents, &other.of_extents);
    }
}

fn add_counts(sum: &mut BTreeMap<u32, u64>, other: &BTreeMap<u32, u64>) {
    for (&number, count) in other {
        *sum.entry(number).or_default() += count;
    }
}
