//! `list` prints what the proved program has printed, and `check` names the fault that it has named.

use crate::common::json::{self, number, text};
use crate::common::{run, Ran};
use std::collections::{BTreeMap, BTreeSet};
use std::fs::{self, DirEntry};
use std::io;
use std::path::{Path, PathBuf};

const CASES: &str = "crates/list_cases";

fn cases() -> PathBuf {
    Path::new(env!("CARGO_MANIFEST_DIR")).join("../..").join(CASES)
}

/// What the proved program has printed for each file.
fn stored() -> BTreeMap<String, String> {
    let all = fs::read_to_string(cases().join("stdout")).expect("stdout");
    let mut stored = BTreeMap::new();
    let mut last = String::new();
    for line in all.lines() {
        if let Some(name) = line.strip_suffix(':') {
            last = name.to_string();
            assert!(stored.insert(last.clone(), String::new()).is_none(), "{name} comes twice");
        } else {
            let listing = stored.get_mut(&last).expect("a name comes first");
            *listing += &format!("{line}\n");
        }
    }
    // The folder itself, which has no bytes to be listed.
    assert_eq!(stored.remove("."), Some("cannot read the input\n".to_string()));
    stored
}

/// Number, node and offset of a verdict line.
fn verdict(listing: &str) -> [u32; 3] {
    let line = listing.lines().next().expect("a first line");
    let numbers = line.strip_prefix("verdict ").expect(line).split(' ');
    let numbers: Vec<u32> = numbers.map(|number| number.parse().expect("a number")).collect();
    numbers.try_into().expect("three numbers")
}

fn assert_faulty(path: &str, [fault, node, offset]: [u32; 3]) {
    let Ran { status, out, err } = run(["check", path]);
    let byte = 512 * node + offset;
    let start = format!("not sound: fault {fault} at node {node}, offset {offset} (byte {byte}): ");
    assert_eq!((status, &*err, out.starts_with(&start)), (1, "", true), "{path}: {out}");
    assert_eq!(run(["list", path]), Ran { status, out, err }, "{path}");

    let Ran { status, out, err } = run(["check", "--json", path]);
    assert_eq!((status, &*err), (1, ""), "{path}");
    let object = json::read(out.trim_end());
    assert_eq!(object.field("answer"), &text("not sound"), "{path}");
    for (name, value) in [("number", fault), ("node", node), ("offset", offset), ("byte", byte)] {
        assert_eq!(object.field(name), &number(value), "{path}: {name}");
    }
    assert_eq!(run(["list", "--json", path]).out, out, "{path}");
}

#[test]
fn every_case_has_its_file() {
    let files = fs::read_dir(cases().join("data")).expect("data");
    let name = |file: io::Result<DirEntry>| file.expect("a file").file_name().into_string();
    let names: BTreeSet<String> = files.map(|file| name(file).expect("text")).collect();
    assert_eq!(names, stored().into_keys().collect());
}

#[test]
fn as_the_proved_program_has_it() {
    let (mut sound, mut faulty, mut too_long) = (0, 0, 0);
    for (name, listing) in stored() {
        let path = format!("{CASES}/data/{name}");
        if listing == "too long\n" {
            too_long += 1;
        } else if verdict(&listing) == [0, 0, 0] {
            let expected = Ran { status: 0, out: listing, err: String::new() };
            assert_eq!(run(["list", &path]), expected, "{name}");
            sound += 1;
        } else {
            assert_eq!(listing.lines().count(), 1, "{name}");
            assert_faulty(&path, verdict(&listing));
            faulty += 1;
        }
    }
    assert!(sound > 0 && faulty > 0, "{sound} {faulty}");
    assert_eq!(too_long, 1);
}

/// What cannot be read is an error of the file, not an answer.
#[test]
fn a_folder_is_no_image() {
    let Ran { status, out, err } = run(["list", &format!("{CASES}/data")]);
    assert_eq!((status, &*out, err.lines().count()), (2, "", 1), "{err}");
}
