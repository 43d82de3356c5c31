//! `trees` of damaged copies of the sample volume: refused, and nothing is written.

use crate::common::json::{self, number, text, Value};
use crate::common::{run, sample, scratch, Ran};
use images::node::{put16, put32};
use reference::{Place, Verdict};
use std::fs;
use std::ops::Range;
use std::path::PathBuf;

/// Where the master directory block has what is changed here.
const SIGNATURE_AT: usize = 1_024;
const BLOCK_SIZE_AT: usize = 1_024 + 20;
const FIRST_SECTOR_AT: usize = 1_024 + 28;
const EXTENTS_SIZE_AT: usize = 1_024 + 130;
const CATALOG_SIZE_AT: usize = 1_024 + 146;

/// The extents overflow file on the volume.
const EXTENTS: Range<usize> = 2_048..2_048 + 6_144;

/// The last piece of the catalog is block 432 alone.
const LAST_PIECE_AT: usize = 2_048 + 512 * 432;

/// A changed copy of the sample volume.
struct Copy {
    file: PathBuf,
    folder: PathBuf,
}

impl Copy {
    fn new(test: &str, change: impl FnOnce(&mut Vec<u8>)) -> Copy {
        let scratch = scratch(test);
        let mut volume = sample("volume.img");
        change(&mut volume);
        let file = scratch.join("volume.img");
        fs::write(&file, volume).expect("a file can be written");
        Copy { file, folder: scratch.join("trees") }
    }

    fn trees(&self, options: &[&str]) -> Ran {
        let [file, folder] = [&self.file, &self.folder].map(|path| path.to_str().expect("text"));
        run([&["trees", file, folder], options].concat())
    }

    /// Refused both ways, and says so; nothing is made. The JSON answer is handed on.
    fn assert_refused(&self, start: &str) -> Value {
        let Ran { status, out, err } = self.trees(&[]);
        assert_eq!((status, &*err), (3, ""), "{out}");
        assert!(out.starts_with(&format!("refused: {start}")), "{out}");
        let Ran { status, out, err } = self.trees(&["--json"]);
        assert_eq!((status, &*err), (3, ""), "{out}");
        assert!(!self.folder.exists());
        let object = json::read(out.trim_end());
        assert_eq!(object.field("answer"), &text("refused"));
        object
    }

    /// Refused for a reason that has these words.
    fn assert_wrong(&self, words: &str) {
        match self.assert_refused("").field("reason") {
            Value::Text(reason) => assert!(reason.contains(words), "{reason}"),
            other => panic!("{other:?} is no reason"),
        }
    }
}

#[test]
fn another_signature() {
    // That of HFS Plus, of MFS, and none.
    for (signature, shown) in [(0x482B, "482B"), (0xD2D7, "D2D7"), (0, "0000")] {
        let copy = Copy::new("another_signature", |volume| put16(volume, SIGNATURE_AT, signature));
        copy.assert_wrong(&format!("{shown}, not 4244"));
    }
}

#[test]
fn block_sizes_that_there_are_not() {
    for size in [0, 1, 511, 513, u32::MAX] {
        let test = "block_sizes_that_there_are_not";
        Copy::new(test, |volume| put32(volume, BLOCK_SIZE_AT, size))
            .assert_wrong(&size.to_string());
    }
}

/// These are lawful, and the pieces then lie elsewhere or not in the image at all.
#[test]
fn blocks_that_are_not_in_the_image() {
    let test = "blocks_that_are_not_in_the_image";
    Copy::new(test, |volume| put32(volume, BLOCK_SIZE_AT, 0xFFFF_FE00)).assert_refused("");
    Copy::new(test, |volume| put16(volume, FIRST_SECTOR_AT, u16::MAX)).assert_wrong("ends before");
    let first_block_of_extents = EXTENTS_SIZE_AT + 4;
    let last = |volume: &mut Vec<u8>| put16(volume, first_block_of_extents, u16::MAX);
    Copy::new(test, last).assert_wrong("ends before");
}

#[test]
fn cut_off_in_the_last_piece_of_the_catalog() {
    let test = "cut_off_in_the_last_piece_of_the_catalog";
    for length in [LAST_PIECE_AT, LAST_PIECE_AT + 1, LAST_PIECE_AT + 511] {
        Copy::new(test, |volume| volume.truncate(length)).assert_wrong("ends before");
    }
    // Right behind it nothing is missing.
    let whole = Copy::new(test, |volume| volume.truncate(LAST_PIECE_AT + 512));
    assert_eq!(whole.trees(&[]).status, 0);
    let catalog = fs::read(whole.folder.join("catalog.img")).expect("the file is there");
    assert!(catalog.ends_with(&sample("volume.img")[LAST_PIECE_AT..][..512]));
}

/// What is read of the master directory block ends at byte 1,186.
#[test]
fn hardly_a_volume() {
    for length in [0, 1, 1_024, 1_185] {
        Copy::new("hardly_a_volume", |volume| volume.truncate(length)).assert_wrong("too short");
    }
    let with_block = Copy::new("hardly_a_volume", |volume| volume.truncate(1_186));
    with_block.assert_wrong("ends before");
    assert_eq!(with_block.trees(&["--extents-only"]).status, 3);
    assert!(!with_block.folder.exists());
}

fn assert_fault_refused(copy: &Copy, fault: Verdict) {
    let Verdict { number: fault, place: Place { node, offset } } = fault;
    let byte = 512 * node + offset;
    let start =
        format!("extents tree: fault {fault} at node {node}, offset {offset} (byte {byte}): ");
    let object = copy.assert_refused(&start);
    assert_eq!(object.field("image"), &text("extents"));
    for (name, value) in [("number", fault), ("node", node), ("offset", offset), ("byte", byte)] {
        assert_eq!(object.field(name), &number(value), "{name}");
    }
}

/// One byte is wrong, here and there; the reference says what the fault is.
#[test]
fn an_extents_tree_that_is_not_sound() {
    let mut faults = 0;
    for at in EXTENTS.step_by(61) {
        let mut volume = sample("volume.img");
        volume[at] ^= 0xFF;
        let mut work = vec![0; reference::needed_work(EXTENTS.len())];
        let fault = reference::check(&volume[EXTENTS], &mut work);
        if fault == Verdict::SOUND {
            continue;
        }
        faults += 1;
        let copy = Copy::new("an_extents_tree_that_is_not_sound", |copy| copy[at] ^= 0xFF);
        assert_fault_refused(&copy, fault);
        let Ran { status, out, err } = copy.trees(&["--extents-only"]);
        let line = "extents.img: not checked, 6144 bytes, pieces 0 12\n";
        assert_eq!((status, &*out, &*err), (0, line, ""));
        let tree = fs::read(copy.folder.join("extents.img")).expect("the file is there");
        assert!(tree == volume[EXTENTS]);
        assert!(!copy.folder.join("catalog.img").exists());
    }
    assert!(faults > 10, "{faults}");
}

/// Sizes of one block and of one byte more than there are pieces for.
#[test]
fn pieces_are_missing() {
    for size in [52_224 + 512, 52_224 + 1] {
        let copy = Copy::new("pieces_are_missing", |volume| put32(volume, CATALOG_SIZE_AT, size));
        copy.assert_wrong("103 blocks, and pieces for 102 of them");
    }
    for size in [6_144 + 512, 6_144 + 1] {
        let copy = Copy::new("pieces_are_missing", |volume| put32(volume, EXTENTS_SIZE_AT, size));
        copy.assert_wrong("13 blocks, and pieces for 12 of them");
        assert_eq!(copy.trees(&["--extents-only"]).status, 3);
        assert!(!copy.folder.exists());
    }
}

/// The largest size there is: 8,388,608 blocks.
#[test]
fn a_size_beyond_all_blocks() {
    let copy =
        Copy::new("a_size_beyond_all_blocks", |volume| put32(volume, CATALOG_SIZE_AT, u32::MAX));
    copy.assert_wrong("8388608 blocks, and pieces for 102 of them");
}

/// What stands in the way is not overwritten, and the other file is not written either.
#[test]
fn a_file_in_the_way() {
    for (there, other) in [("catalog.img", "extents.img"), ("extents.img", "catalog.img")] {
        let copy = Copy::new("a_file_in_the_way", |_| ());
        fs::create_dir(&copy.folder).expect("a folder can be made");
        fs::write(copy.folder.join(there), "mine").expect("a file can be written");
        let Ran { status, out, err } = copy.trees(&[]);
        assert_eq!((status, &*out, err.lines().count()), (2, "", 1));
        assert_eq!(fs::read(copy.folder.join(there)).expect(there), b"mine");
        assert!(!copy.folder.join(other).exists());
        assert_eq!(fs::read_dir(&copy.folder).expect("a folder").count(), 1);
    }
}
