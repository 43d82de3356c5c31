//! Does every command say in one line that it cannot read a file, and what does it say of an empty one?

use crate::common::{assert_trouble, file_names, run, scratch};
use std::ffi::{OsStr, OsString};
use std::fs;
use std::os::unix::ffi::OsStrExt;
use std::path::Path;

/// Every command that reads a file, with the status of its answer where that is empty. `@` is the file,
/// `OUT` a place for what it makes.
const COMMANDS: [(&str, i32); 12] = [
    ("check @", 1),
    ("check --catalog @", 1),
    ("check --plus 4096 @", 1),
    ("list @", 1),
    ("list --catalog @", 1),
    ("find @ 16 data 5", 3),
    ("find --catalog @ 2 Heights", 3),
    ("salvage @ 16 data 5", 1),
    ("salvage --catalog @ 2 Heights", 1),
    ("block @ samples/block_extents.img 2 Heights data 7", 3),
    ("block samples/block_catalog.img @ 2 Heights data 7", 3),
    ("trees @ OUT", 3),
];

/// An empty row is lawful.
const WRITE: (&str, i32) = ("write @ OUT --nodes 3", 0);

/// The words of a command that reads the file and would make something in the folder.
fn words(command: &str, file: &Path, folder: &Path) -> Vec<OsString> {
    let word = |word: &str| match word {
        "@" => file.into(),
        "OUT" => folder.join("out").into(),
        _ => word.into(),
    };
    command.split(' ').map(word).collect()
}

/// Asks each command about a file that cannot be read, and holds that nothing is made.
fn assert_each_has_trouble(file: &Path, folder: &Path) {
    let before = file_names(folder);
    for (command, _) in COMMANDS.into_iter().chain([WRITE]) {
        for json in [None, Some("--json".into())] {
            let ran = run(words(command, file, folder).into_iter().chain(json));
            assert_trouble(&ran);
            assert_eq!(file_names(folder), before, "{command}");
        }
    }
}

#[test]
fn a_missing_file() {
    let folder = scratch("a_missing_file");
    fs::write(folder.join("file"), b"").expect("a file");
    assert_each_has_trouble(&folder.join("none"), &folder);
    assert_each_has_trouble(&folder.join("none/none"), &folder);
    assert_each_has_trouble(&folder.join("file/none"), &folder);
    assert_each_has_trouble(Path::new(""), &folder);
}

#[test]
fn a_folder() {
    let folder = scratch("a_folder");
    fs::create_dir(folder.join("inner")).expect("a folder");
    assert_each_has_trouble(&folder.join("inner"), &folder);
    assert_each_has_trouble(Path::new("."), &folder);
}

#[test]
fn a_name_of_any_bytes_is_still_one_line() {
    let folder = scratch("a_name_of_any_bytes");
    for name in [&b"a\nb"[..], b"\n", b"a\r\nb\x1B[31m", b"\xFF\n\xFE", "\u{85}".as_bytes()] {
        assert_each_has_trouble(&folder.join(OsStr::from_bytes(name)), &folder);
    }
    let missing = folder.join("first\nsecond");
    let ran = run(["check".as_ref(), missing.as_os_str()]);
    assert!(ran.err.contains("first\\nsecond: "), "{ran:?}");
}

#[test]
fn the_message_names_the_file() {
    for (command, _) in COMMANDS.into_iter().chain([WRITE]) {
        let folder = scratch("the_message_names_the_file");
        let missing = folder.join("none");
        let ran = run(words(command, &missing, &folder));
        let named = format!("hfs-btree: {}: ", missing.display());
        assert!(ran.err.starts_with(&named), "{command}: {ran:?}");
    }
}

#[test]
fn two_files_that_cannot_be_read_are_one_line() {
    let words = ["block", "samples/none", "samples", "2", "Heights", "data", "7"];
    assert_trouble(&run(words));
}

#[test]
fn an_empty_file() {
    let folder = scratch("an_empty_file");
    let file = folder.join("empty");
    fs::write(&file, b"").expect("a file");
    for (command, status) in COMMANDS {
        for json in [None, Some("--json".into())] {
            let ran = run(words(command, &file, &folder).into_iter().chain(json));
            assert_eq!((ran.status, ran.err.as_str()), (status, ""), "{command}: {ran:?}");
            assert!(!ran.out.contains("found") && !ran.out.contains("absent"), "{ran:?}");
            assert_eq!(file_names(&folder), ["empty"], "{command}");
        }
    }
}

#[test]
fn an_empty_row_makes_an_empty_tree() {
    let folder = scratch("an_empty_row");
    let file = folder.join("empty");
    fs::write(&file, b"").expect("a file");
    let ran = run(words(WRITE.0, &file, &folder));
    assert_eq!((ran.status, ran.err.as_str()), (WRITE.1, ""));
    assert_eq!(file_names(&folder), ["empty", "out"]);
    let out = folder.join("out");
    let checked = run(["check".as_ref(), out.as_os_str()]);
    assert_eq!(checked.out, "sound: 3 nodes, 2 free, depth 0, 0 leaf records\n");
}
