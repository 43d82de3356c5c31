//! `find` and `salvage` of extents overflow files answer as the reference does.

use crate::common::answer::{of_lookup, of_salvage, Shown};
use crate::common::{extents, sample};
use images::{samples, Format, Key};
use reference::editions;
use std::ops::Range;

/// Of a longer leaf list so many keys are asked for, and each with the keys right beside it.
const MOST_KEYS: usize = 200;

/// A sample with its format.
struct Tree {
    file: &'static str,
    format: Format,
    image: Vec<u8>,
}

impl Tree {
    fn new(file: &'static str, format: Format) -> Tree {
        Tree { file, format, image: sample(file) }
    }

    fn node_size(&self) -> u32 {
        self.format.node_size as u32
    }

    fn words(&self, command: &str, key: Key) -> Vec<String> {
        let fork = match key.fork {
            0x00 => "data",
            _ => "resource",
        };
        let mut words = vec![command.to_string()];
        if self.format != Format::HFS {
            words.extend(["--plus".to_string(), self.format.node_size.to_string()]);
        }
        words.push(format!("samples/{}", self.file));
        words.extend([key.file.to_string(), fork.to_string(), key.start.to_string()]);
        words
    }

    fn shown(&self, data: Range<usize>) -> Shown {
        let pairs = extents::pairs(&self.image[data]);
        Shown {
            lines: vec![format!("extents: {}", extents::shown(&pairs))],
            fields: vec![("extents".to_string(), extents::value(&pairs))],
        }
    }

    fn assert_found(&self, key: Key) {
        let Key { file, fork, start } = key;
        let mut work = vec![0; editions::needed_work(self.node_size(), self.image.len())];
        let edition = self.format.edition_number();
        let lookup =
            editions::lookup(edition, self.node_size(), &self.image, file, fork, start, &mut work);
        let expected = of_lookup(&lookup, self.node_size(), |data| self.shown(data));
        expected.assert_said(&self.words("find", key));
    }

    fn assert_salvaged(&self, key: Key) {
        let Key { file, fork, start } = key;
        let edition = self.format.edition_number();
        let salvage = editions::salvage(edition, self.node_size(), &self.image, file, fork, start);
        let expected = of_salvage(&salvage, self.node_size(), |data| self.shown(data));
        expected.assert_said(&self.words("salvage", key));
    }
}

fn keys_of_hfs(image: &[u8]) -> Vec<Key> {
    let records = reference::leaf_records(image);
    let key = |key: reference::Key| Key::new(key.file, key.fork, key.start.into());
    records.into_iter().map(|record| key(record.key)).collect()
}

/// Keys from all of the leaf list, the keys right beside them, and the lowest and the highest there are.
fn keys_to_ask(format: Format, keys: &[Key]) -> Vec<Key> {
    let last = format.lawful_keys() - 1;
    let beside = |key: &Key| {
        let rank = format.rank_of(*key);
        [rank.saturating_sub(1), rank, (rank + 1).min(last)]
    };
    let chosen = keys.iter().step_by(keys.len().div_ceil(MOST_KEYS).max(1));
    let mut ranks: Vec<u128> = chosen.flat_map(beside).chain([0, last]).collect();
    ranks.sort();
    ranks.dedup();
    ranks.into_iter().map(|rank| format.key_of_rank(rank)).collect()
}

/// The files that the samples of HFS are, sound ones.
const HFS_SAMPLES: [&str; 5] =
    ["l1.img", "two_leaves.img", "three_level.img", "written_two_level.img", "block_extents.img"];

#[test]
fn hfs_found_or_absent() {
    for file in HFS_SAMPLES {
        let tree = Tree::new(file, Format::HFS);
        for key in keys_to_ask(Format::HFS, &keys_of_hfs(&tree.image)) {
            tree.assert_found(key);
        }
    }
}

#[test]
fn hfs_seen_or_not() {
    for file in HFS_SAMPLES.into_iter().chain(["two_leaves_pointer_below_first_key.img"]) {
        let tree = Tree::new(file, Format::HFS);
        // A salvage has no path, so that every other key is enough.
        for key in keys_to_ask(Format::HFS, &keys_of_hfs(&tree.image)).into_iter().step_by(2) {
            tree.assert_salvaged(key);
        }
    }
}

#[test]
fn hfs_plus_found_or_absent_and_seen_or_not() {
    let built = samples::two_level_plus();
    let tree = Tree::new("plus_4096_two_level.img", built.format);
    assert!(tree.image == built.image, "the sample is the generator's");
    let keys: Vec<Key> = built.records.iter().map(|record| record.key).collect();
    for key in keys_to_ask(built.format, &keys) {
        tree.assert_found(key);
        tree.assert_salvaged(key);
    }
}

/// A start block that no key of HFS has is asked for all the same.
#[test]
fn start_blocks_that_hfs_has_not() {
    let tree = Tree::new("two_leaves.img", Format::HFS);
    for key in keys_of_hfs(&tree.image) {
        for start in [65_536, 65_536 + key.start, u32::MAX] {
            tree.assert_found(Key { start, ..key });
            tree.assert_salvaged(Key { start, ..key });
        }
    }
}

/// By hand, from the paper's tree of one leaf: file 16, data fork, block 5 has 3 blocks from 100 on.
#[test]
fn the_words_by_hand() {
    let found = crate::common::run(["find", "samples/l1.img", "16", "data", "5"]);
    let lines = "found at node 1, offset 14 (byte 526)\npath: 1\nkeys compared: 1\n\
                 extents: 100 3, 0 0, 0 0\n";
    assert_eq!((found.status, &*found.out), (0, lines));
    let absent = crate::common::run(["find", "samples/l1.img", "16", "resource", "5"]);
    let lines = "absent: the search ended at node 1, offset 0 (byte 512)\npath: 1\n\
                 keys compared: 1\n";
    assert_eq!((absent.status, &*absent.out), (1, lines));
}

/// Depth 0 has no path.
#[test]
fn an_empty_tree_has_no_path() {
    let file = crate::common::scratch("an_empty_tree_has_no_path").join("e1.img");
    std::fs::write(&file, images::bench::e1()).expect("a file can be written");
    let absent = crate::common::run(["find", file.to_str().expect("text"), "16", "data", "5"]);
    let lines = "absent: the search ended at node 0, offset 0 (byte 0)\npath: none\n\
                 keys compared: 0\n";
    assert_eq!((absent.status, &*absent.out), (1, lines));
}
