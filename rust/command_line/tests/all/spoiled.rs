//! Does any output of a tree with one fault say that a record is found or absent?

use crate::common::{options, scratch};
use crate::spoiling::{
    assert_names_the_fault, assert_says_neither, run_both, some_keys, some_spoilings, spoiled,
    Given,
};
use images::spoil::Spoiling;
use images::{build, catalog, samples, Built, Plan, Rng};
use std::collections::BTreeSet;
use std::fs;
use std::path::{Path, PathBuf};

/// Spoilings of each number in each tree.
const OF_EACH_NUMBER: usize = 8;

/// No salvage looks into a longer image.
const MOST_NODES: usize = 65_536;

/// A tree in a file that is spoiled again and again.
struct Subject<'a, K> {
    built: &'a Built<K>,
    file: PathBuf,
    /// The statuses that salvage had.
    salvaged: BTreeSet<i32>,
}

impl<K: Given> Subject<'_, K> {
    fn run_both(&self, command: &str, operands: &[String]) -> [crate::common::Ran; 2] {
        run_both(command, &options(self.built.format), &self.file, operands)
    }

    /// Before it is spoiled, the same questions get the other answers.
    fn ask_sound(&self, keys: &[K]) {
        fs::write(&self.file, &self.built.image).expect("a file");
        for (command, said) in [("check", "sound"), ("list", "records")] {
            for ran in self.run_both(command, &[]) {
                assert_eq!(ran.status, 0, "{ran:?}");
                assert!(ran.out.contains(said) && !ran.out.contains("not sound"), "{ran:?}");
            }
        }
        for (key, (status, said)) in keys.iter().zip([(0, "found"), (1, "absent")].iter().cycle()) {
            for ran in self.run_both("find", &key.words()) {
                assert_eq!(ran.status, *status, "{ran:?}");
                assert!(ran.out.contains(said), "{ran:?}");
            }
        }
    }

    fn ask_spoiled(&mut self, spoiling: &Spoiling, keys: &[K]) {
        let image = spoiled(&self.built.image, spoiling);
        fs::write(&self.file, &image).expect("a file");
        let (format, name) = (self.built.format, spoiling.name());
        for command in ["check", "list"] {
            let both = self.run_both(command, &[]);
            both.iter().for_each(|ran| assert_says_neither(ran, 1, &name));
            assert_names_the_fault(&both, format, &image, spoiling);
        }
        for key in keys {
            let both = self.run_both("find", &key.words());
            both.iter().for_each(|ran| assert_says_neither(ran, 3, &name));
            assert_names_the_fault(&both, format, &image, spoiling);
            let is_too_long = image.len() > MOST_NODES * format.node_size;
            self.salvage(key, is_too_long, &name);
        }
    }

    fn salvage(&mut self, key: &K, is_too_long: bool, name: &str) {
        let both = self.run_both("salvage", &key.words());
        for ran in &both {
            assert_says_neither(ran, both[0].status, name);
            assert_eq!(ran.status == 3, is_too_long, "{name}: {ran:?}");
            let said = ran.out.matches("seen proves nothing").count();
            assert_eq!(said, usize::from(!is_too_long), "{name}: {ran:?}");
            let is_seen = ran.out.starts_with("seen at") || ran.out.contains("\"answer\":\"seen\"");
            assert_eq!(ran.status == 0, is_seen, "{name}: {ran:?}");
        }
        self.salvaged.insert(both[0].status);
    }
}

fn each_fault<K: Given>(folder: &Path, seed: u64, built: &Built<K>) {
    let mut rng = Rng::new(seed);
    let file = folder.join("tree.img");
    let mut subject = Subject { built, file, salvaged: BTreeSet::new() };
    subject.ask_sound(&some_keys(&mut rng, built));
    for spoiling in some_spoilings(&mut rng, built, OF_EACH_NUMBER) {
        // One key of the tree and the one beside it.
        let keys = &some_keys(&mut rng, built)[2..4];
        subject.ask_spoiled(&spoiling, keys);
    }
    assert!(subject.salvaged.is_superset(&[0, 1].into()), "seen, and not seen, in spoiled trees");
}

#[test]
fn extents_of_hfs() {
    let folder = scratch("spoiled_extents_of_hfs");
    each_fault(&folder, 1, &samples::two_level());
    each_fault(&folder, 2, &samples::three_level());
    each_fault(&folder, 3, &samples::falling_map_nodes());
    each_fault(&folder, 4, &build(&Plan { map_nodes: 1, ..Plan::untidy(4, &[1, 2, 3, 5, 8]) }));
}

#[test]
fn extents_of_hfs_plus() {
    let folder = scratch("spoiled_extents_of_hfs_plus");
    each_fault(&folder, 5, &samples::two_level_plus());
    each_fault(&folder, 6, &samples::three_level_plus());
}

#[test]
fn catalogs() {
    let folder = scratch("spoiled_catalogs");
    each_fault(&folder, 7, &catalog::samples::two_level());
    each_fault(&folder, 8, &catalog::samples::three_level());
    each_fault(&folder, 9, &catalog::build(&catalog::CatalogPlan::untidy(9, &[1, 2, 3, 5])));
}
