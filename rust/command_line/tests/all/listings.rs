//! `list` of extents overflow files says what the reference reads, or what was put in.

use crate::common::json::{self, number, object, Value};
use crate::common::{extents, run, scratch, Ran};
use images::{bench, build, samples, Built, Edition, Format, Plan, PLUS_NODE_SIZES};
use reference::{leaf_records, listing, Verdict};
use std::fs;
use std::path::PathBuf;

/// The longest image that the listing program takes.
const LONGEST_LISTED: usize = 65_536;

/// A leaf record, and where it stands.
struct Line {
    node: u32,
    offset: u32,
    file: u32,
    fork: u8,
    start: u32,
    pairs: Vec<[u32; 2]>,
}

impl Line {
    fn text(&self) -> String {
        let Line { file, fork, start, .. } = self;
        let pairs: String = self.pairs.iter().map(|[s, n]| format!(" {s} {n}")).collect();
        format!("{file} {fork} {start}{pairs}\n")
    }

    fn object(&self) -> Value {
        object([
            ("node", number(self.node)),
            ("offset", number(self.offset)),
            ("file", number(self.file)),
            ("fork", number(self.fork)),
            ("start", number(self.start)),
            ("extents", extents::value(&self.pairs)),
        ])
    }
}

/// The records that the reference reads, in HFS.
fn read(image: &[u8]) -> Vec<Line> {
    let line = |record: &reference::LeafRecord| Line {
        node: record.node,
        offset: record.start,
        file: record.key.file,
        fork: record.key.fork,
        start: record.key.start.into(),
        pairs: extents::pairs(&record.data),
    };
    leaf_records(image).iter().map(line).collect()
}

/// The records that were put in, leaf by leaf.
fn put_in(built: &Built) -> Vec<Line> {
    let record_size = match built.format.edition {
        Edition::Hfs => 20,
        Edition::HfsPlus => 76,
    };
    let mut lines = Vec::new();
    let leaves = built.levels.last().into_iter();
    for (node, group) in leaves.flat_map(|level| level.numbers.iter().zip(&level.groups)) {
        for (record, offset) in built.records[group.clone()].iter().zip((14..).step_by(record_size))
        {
            let images::Key { file, fork, start } = record.key;
            let pairs = extents::pairs(&record.data);
            lines.push(Line { node: *node, offset, file, fork, start, pairs });
        }
    }
    lines
}

fn text(titles: &str, lines: &[Line]) -> String {
    let records: String = lines.iter().map(Line::text).collect();
    format!("verdict 0 0 0\n{titles}\n{records}records {}\n", lines.len())
}

const HFS_TITLES: &str = "file fork start s1 n1 s2 n2 s3 n3";
const PLUS_TITLES: &str = "file fork start s1 n1 s2 n2 s3 n3 s4 n4 s5 n5 s6 n6 s7 n7 s8 n8";

/// A file for one image after the other.
struct Lister {
    file: PathBuf,
    listed: usize,
}

impl Lister {
    fn new(test: &str) -> Lister {
        Lister { file: scratch(test).join("tree.img"), listed: 0 }
    }

    fn list(&self, options: &[&str]) -> String {
        let mut words = [&["list"], options].concat();
        let file = self.file.to_str().expect("the path is text");
        words.push(file);
        let Ran { status, out, err } = run(words);
        assert_eq!((status, &*err), (0, ""), "{options:?}");
        out
    }

    fn assert_listed(&mut self, options: &[&str], image: &[u8], text: &str, lines: &[Line]) {
        fs::write(&self.file, image).expect("a file can be written");
        assert!(self.list(options) == text, "{options:?}, image {}", self.listed);
        let objects = json::read_lines(&self.list(&[options, &["--json"]].concat()));
        let mut expected: Vec<Value> = lines.iter().map(Line::object).collect();
        expected.push(object([("records", number(lines.len() as u64))]));
        assert!(objects == expected, "{options:?}, image {}", self.listed);
        self.listed += 1;
    }

    fn assert_hfs_listed(&mut self, image: &[u8]) {
        let lines = read(image);
        let made = text(HFS_TITLES, &lines);
        if image.len() <= LONGEST_LISTED {
            assert!(made == listing(image), "the test itself agrees with the reference");
        }
        self.assert_listed(&[], image, &made, &lines);
    }

    fn assert_plus_listed(&mut self, built: &Built) {
        let lines = put_in(built);
        let node_size = built.format.node_size.to_string();
        self.assert_listed(
            &["--plus", &node_size],
            &built.image,
            &text(PLUS_TITLES, &lines),
            &lines,
        );
    }
}

#[test]
fn random_trees_of_hfs() {
    let mut lister = Lister::new("random_trees_of_hfs");
    for depth in 0..=8 {
        for seed in 4_100..4_115 {
            lister.assert_hfs_listed(&build(&Plan::random(seed, depth, 12)).image);
        }
    }
}

#[test]
fn random_trees_of_hfs_plus() {
    let mut lister = Lister::new("random_trees_of_hfs_plus");
    for format in PLUS_NODE_SIZES.map(Format::plus) {
        for depth in 0..=8 {
            for seed in 4_200..4_202 {
                lister.assert_plus_listed(&build(&Plan::random_in(format, seed, depth, 6)));
            }
        }
    }
}

#[test]
fn samples_of_hfs() {
    let mut lister = Lister::new("samples_of_hfs");
    let built = [
        samples::two_level(),
        samples::three_level(),
        samples::falling_map_nodes(),
        samples::longest_listed(),
        samples::largest_of(1),
        samples::largest_of(100),
    ];
    for built in built {
        // Both independent sides have the same records.
        assert!(text("", &read(&built.image)) == text("", &put_in(&built)));
        lister.assert_hfs_listed(&built.image);
    }
}

/// From one node more than the listing program takes to 6 MB.
#[test]
fn trees_of_hfs_longer_than_any_listing() {
    let mut lister = Lister::new("trees_of_hfs_longer_than_any_listing");
    let one_node_more = Plan { free_nodes: 15, ..Plan::untidy(6, &[1, 4, 108]) };
    let built = [
        build(&one_node_more),
        samples::three_level_large(),
        samples::needed_map_nodes(),
        samples::largest_of(6_000),
    ];
    assert_eq!(built[0].image.len(), LONGEST_LISTED + 512);
    for built in built {
        assert!(built.image.len() > LONGEST_LISTED);
        lister.assert_hfs_listed(&built.image);
    }
}

#[test]
fn sound_images_of_the_bench() {
    let mut lister = Lister::new("sound_images_of_the_bench");
    let images = [
        bench::e1(),
        bench::l1(),
        bench::leaf_with(22),
        bench::index_with(35),
        bench::two_leaves(),
        bench::empty_tree(2_048),
    ];
    for image in images {
        let mut work = vec![0; reference::needed_work(image.len())];
        assert_eq!(reference::check(&image, &mut work), Verdict::SOUND);
        lister.assert_hfs_listed(&image);
    }
}

#[test]
fn samples_of_hfs_plus() {
    let mut lister = Lister::new("samples_of_hfs_plus");
    let built = [
        samples::two_level_plus(),
        samples::three_level_plus(),
        samples::largest_plus(1),
        samples::largest_plus(100),
        samples::largest_plus(1_000),
    ];
    for built in built {
        lister.assert_plus_listed(&built);
    }
}

/// The most nodes there are; the text alone, to save time.
#[test]
fn the_largest_tree() {
    let lister = Lister::new("the_largest_tree");
    let image = samples::largest().image;
    fs::write(&lister.file, &image).expect("a file can be written");
    assert!(lister.list(&[]) == text(HFS_TITLES, &read(&image)));
}
