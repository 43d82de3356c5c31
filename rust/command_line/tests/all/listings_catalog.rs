//! `list --catalog` says what the reference reads, in names of any bytes.

use crate::common::entry::{self, thread_name};
use crate::common::json::{self, number, object, text, Value};
use crate::common::names::{decoded, hex, quoted};
use crate::common::{run, sample, scratch, Ran};
use images::catalog::{bench, build, samples, CatalogPlan};
use reference::catalog::{leaf_records, Entry, LeafRecord};
use std::collections::BTreeSet;
use std::fs;
use std::path::PathBuf;

fn line(record: &LeafRecord) -> String {
    let (parent, name) = (record.key.parent, quoted(record.key.name));
    let said = match Entry::read(record.data).expect("a record of one of four types") {
        Entry::Directory(directory) => format!("directory {}", directory.directory_id),
        Entry::File(file) => format!("file {}", file.file_id),
        Entry::DirectoryThread(thread) => {
            format!("directory thread {} {}", thread.parent_id, quoted(thread_name(&thread)))
        }
        Entry::FileThread(thread) => {
            format!("file thread {} {}", thread.parent_id, quoted(thread_name(&thread)))
        }
    };
    format!("{parent} {name} {said}\n")
}

fn listing(records: &[LeafRecord]) -> String {
    let lines: String = records.iter().map(line).collect();
    format!("verdict 0 0 0\nparent name kind\n{lines}records {}\n", records.len())
}

fn record_object(record: &LeafRecord) -> Value {
    let key = [
        ("node", number(record.node)),
        ("offset", number(record.start)),
        ("parent", number(record.key.parent)),
        ("name", text(decoded(record.key.name))),
        ("name_hex", text(hex(record.key.name))),
    ];
    let shown = entry::shown(record.data);
    let fields = shown.fields.iter().map(|(name, value)| (&**name, value.clone()));
    object(key.into_iter().chain(fields))
}

struct Lister {
    file: PathBuf,
    /// All the bytes that names have had.
    bytes: BTreeSet<u8>,
}

impl Lister {
    fn new(test: &str) -> Lister {
        Lister { file: scratch(test).join("catalog.img"), bytes: BTreeSet::new() }
    }

    fn list(&self, option: Option<&str>) -> String {
        let file = self.file.to_str().expect("the path is text");
        let Ran { status, out, err } = run(["list", "--catalog", file].into_iter().chain(option));
        assert_eq!((status, &*err), (0, ""));
        out
    }

    fn assert_listed(&mut self, image: &[u8]) {
        let records = leaf_records(image);
        fs::write(&self.file, image).expect("a file can be written");
        assert_eq!(self.list(None), listing(&records));
        let mut objects: Vec<Value> = records.iter().map(record_object).collect();
        objects.push(object([("records", number(records.len() as u64))]));
        assert!(json::read_lines(&self.list(Some("--json"))) == objects);
        self.bytes.extend(records.iter().flat_map(|record| record.key.name));
    }
}

#[test]
fn random_catalogs_of_every_depth() {
    let mut lister = Lister::new("random_catalogs_of_every_depth");
    for depth in 0..=8 {
        for seed in 4_300..4_312 {
            lister.assert_listed(&build(&CatalogPlan::random(seed, depth, 12)).image);
        }
    }
    assert_eq!(lister.bytes.len(), 256, "every byte has been in a name");
}

/// Each byte is in one of nine names.
#[test]
fn every_byte_in_a_name() {
    let mut lister = Lister::new("every_byte_in_a_name");
    let bytes: Vec<u8> = (0..=0xFF).collect();
    for name in bytes.chunks(31) {
        lister.assert_listed(&bench::two_names([b"", name]));
    }
    assert_eq!(lister.bytes.len(), 256);
}

/// What a shell or a terminal would trip over, by hand.
#[test]
fn names_by_hand() {
    let file = scratch("names_by_hand").join("catalog.img");
    let names: [&[u8]; 2] = [b"\"\\\0\n\x1B\x7F", b"\xDB\xCA\xF0\x80\xFF"];
    fs::write(&file, bench::two_names(names)).expect("a file can be written");
    let out = run(["list", "--catalog", file.to_str().expect("the path is text")]).out;
    let lines: Vec<&str> = out.lines().collect();
    assert_eq!(lines[2], r#"2 "\"\\\x00\x0a\x1b\x7f" directory 16"#);
    assert_eq!(lines[3], "2 \"\u{A4}\u{A0}\u{F8FF}\u{C4}\u{2C7}\" directory 16");
    assert_eq!(lines[4..], ["records 2"]);
}

#[test]
fn catalogs_of_the_bench() {
    let mut lister = Lister::new("catalogs_of_the_bench");
    let images = [
        bench::empty_tree(1),
        bench::cartridge(),
        bench::leaf_with(8),
        bench::index_with(11),
        bench::two_leaves(),
        bench::case_twins([2, 3]),
    ];
    for image in images {
        lister.assert_listed(&image);
    }
}

#[test]
fn samples_with_names() {
    let mut lister = Lister::new("samples_with_names");
    for built in [samples::two_level(), samples::three_level(), samples::largest_mixed_of(6_000)] {
        lister.assert_listed(&built.image);
    }
    for name in ["catalog_cartridge.img", "catalog_three_level.img", "block_catalog.img"] {
        lister.assert_listed(&sample(name));
    }
    lister.assert_listed(&sample("volume_catalog_mended.img"));
}
