//! Does a wrong command line get one line on standard error and nothing else?

use crate::common::{assert_trouble, run, sample, scratch, Ran};
use std::ffi::OsStr;
use std::fs;
use std::os::unix::ffi::OsStrExt;

/// A file that is there and sound, so that the words alone are wrong.
const TREE: &str = "samples/l1.img";
const CATALOG: &str = "samples/catalog_cartridge.img";
const VOLUME_CATALOG: &str = "samples/volume_catalog_mended.img";

/// Runs the words of a line, which are parted by single spaces, so that two make an empty word.
fn run_line(line: &str) -> Ran {
    run(line.split(' '))
}

fn assert_refuses_each(lines: &[String]) {
    for line in lines {
        let ran = run_line(line);
        assert_trouble(&ran);
        assert!(ran.err.ends_with(" (see hfs-btree --help)\n"), "{line}: {ran:?}");
    }
}

/// Every line with the names of the samples put in.
fn lines(patterns: &[&str]) -> Vec<String> {
    let named = |pattern: &&str| {
        pattern.replace("TREE", TREE).replace("CATALOG", CATALOG).replace("OUT", "target/none/out")
    };
    patterns.iter().map(named).collect()
}

#[test]
fn no_command_or_one_that_there_is_not() {
    assert_trouble(&run([] as [&str; 0]));
    let wrong = ["", "-", "--", "--json", "nope", "Check TREE", "chec TREE", "TREE", " check TREE"];
    assert_refuses_each(&lines(&wrong));
    assert_trouble(&run([OsStr::from_bytes(b"\xFF\n")]));
}

#[test]
fn options_that_there_are_not_or_not_here() {
    assert_refuses_each(&lines(&[
        "check TREE --nope",
        "check TREE -j",
        "check TREE --jso",
        "check TREE --JSON",
        "check TREE ---",
        "check TREE --name-hex 00",
        "check TREE --nodes 3",
        "check TREE --extents-only",
        "list TREE --nodes 3",
        "find TREE 16 data 5 --name-hex 00",
        "find TREE 16 data 5 --nodes 3",
        "find --catalog CATALOG 2 a --nodes 3",
        "salvage TREE 16 data 5 --extents-only",
        "block CATALOG TREE 2 a data 0 --catalog",
        "block CATALOG TREE 2 a data 0 --plus 512",
        "write TREE OUT --nodes 3 --catalog",
        "write TREE OUT --nodes 3 --plus 512",
        "trees TREE OUT --nodes 3",
        "trees TREE OUT --plus 512",
        "check TREE --json=yes",
        "check TREE --catalog=yes",
    ]));
}

#[test]
fn options_twice_or_without_a_value() {
    assert_refuses_each(&lines(&[
        "check TREE --json --json",
        "--json check TREE --json",
        "check CATALOG --catalog --catalog",
        "check TREE --plus 512 --plus 512",
        "check TREE --plus=512 --plus 1024",
        "find --catalog CATALOG 2 --name-hex 00 --name-hex 00",
        "write TREE OUT --nodes 3 --nodes 3",
        "trees TREE OUT --extents-only --extents-only",
        "check TREE --plus",
        "check TREE --plus=",
        "find --catalog CATALOG 2 --name-hex",
        "write TREE OUT --nodes",
        "write TREE OUT",
        "check --catalog --plus 512 TREE",
        "find --plus 512 TREE 2 a --catalog",
    ]));
}

#[test]
fn too_few_and_too_many_operands() {
    assert_refuses_each(&lines(&[
        "check",
        "check TREE TREE",
        "list",
        "list TREE TREE",
        "find",
        "find TREE 16 data",
        "find TREE 16 data 5 5",
        "find --catalog CATALOG 2",
        "find --catalog CATALOG 2 a b",
        "find --catalog CATALOG 2 a --name-hex 61",
        "find --catalog CATALOG --name-hex 61",
        "salvage TREE 16 data",
        "salvage --catalog CATALOG 2",
        "block CATALOG TREE 2 a data",
        "block CATALOG TREE 2 a data 0 0",
        "block CATALOG TREE 2 a data 0 --name-hex 61",
        "write TREE --nodes 3",
        "write TREE OUT OUT --nodes 3",
        "trees TREE",
        "trees TREE OUT OUT",
    ]));
}

#[test]
fn numbers_sizes_and_forks_that_are_none() {
    for number in ["", "-1", "+1", "1.0", "0x10", "1e3", "a", "4294967296", "99999999999999999999"]
    {
        let of = |pattern: &str| pattern.replace('#', number);
        let patterns = ["find TREE # data 5", "find TREE 16 data #", "salvage TREE # resource 5"];
        let more =
            ["find --catalog CATALOG # a", "write TREE OUT --nodes #", "check TREE --plus #"];
        let given: Vec<String> = patterns.iter().chain(&more).map(|pattern| of(pattern)).collect();
        assert_refuses_each(&lines(&given.iter().map(String::as_str).collect::<Vec<_>>()));
    }
    assert_refuses_each(&lines(&[
        "block CATALOG TREE 2 a data 65536",
        "block CATALOG TREE 2 a data -1",
        "block CATALOG TREE 4294967296 a data 0",
        "check TREE --plus 0",
        "check TREE --plus 256",
        "check TREE --plus 513",
        "check TREE --plus 65536",
        "find TREE 16 Data 5",
        "find TREE 16 rsrc 5",
        "find TREE 16 255 5",
        "block CATALOG TREE 2 a both 0",
    ]));
}

#[test]
fn names_that_are_none() {
    for hex in ["0", "000", "0g", "0x00", "4 8", "é0", "+1"] {
        assert_trouble(&run(["find", "--catalog", CATALOG, "2", "--name-hex", hex]));
        assert_trouble(&run(["block", CATALOG, TREE, "2", "data", "0", "--name-hex", hex]));
    }
    // What MacRoman has not: another script, a letter with its accent apart, a picture.
    let not_mac_roman = ["Ж", "e\u{301}", "a\u{1F5FA}", "\u{80}"].map(|name| name.as_bytes());
    let not_utf_8: [&[u8]; 3] = [b"\xFF", b"H\x9Ahen", b"\xED\xA0\x80\n"];
    for name in not_mac_roman.into_iter().chain(not_utf_8) {
        let name = OsStr::from_bytes(name);
        let [catalog, tree] = [CATALOG, TREE].map(OsStr::new);
        let before = |words: &'static str| words.split(' ').map(OsStr::new);
        assert_trouble(&run(before("find --catalog").chain([catalog, OsStr::new("2"), name])));
        assert_trouble(&run(before("salvage --catalog").chain([catalog, OsStr::new("2"), name])));
        let key = [catalog, tree, OsStr::new("2"), name];
        assert_trouble(&run(before("block").chain(key).chain(before("data 0"))));
    }
}

#[test]
fn a_dash_before_a_name_or_a_file() {
    let asked = ["find", "--catalog", VOLUME_CATALOG, "2", "--", "-Heights"];
    assert_eq!(run(asked).status, 1, "a lawful key that is not there");
    assert_trouble(&run(["find", "--catalog", VOLUME_CATALOG, "2", "-Heights"]));
    assert_eq!(run(["find", "--catalog", "--", VOLUME_CATALOG, "2", "Heights"]).status, 0);
    assert_eq!(run(["find", "--catalog", VOLUME_CATALOG, "2", "--", "--help"]).status, 1);
    assert_eq!(run(["--", "check", TREE]).status, 0);
    let folder = scratch("a_dash");
    fs::write(folder.join("-l1.img"), sample("l1.img")).expect("a file");
    let in_folder = |words: [&str; 3]| {
        let words = words.iter().filter(|word| !word.is_empty());
        crate::common::ran(
            crate::common::program().current_dir(&folder).args(words).output().expect("a run"),
        )
    };
    assert_eq!(in_folder(["check", "--", "-l1.img"]).status, 0);
    assert_trouble(&in_folder(["check", "-l1.img", ""]));
}
