//! Is a file ever overwritten, and does anything stay behind where nothing was to be made?

use crate::common::{assert_trouble, file_names, program, run, sample, scratch, Ran};
use std::ffi::OsStr;
use std::fs;
use std::os::unix::fs::symlink;
use std::path::Path;
use std::process::Command;

const ROW: &str = "samples/written_two_level.row";
const VOLUME: &str = "samples/volume.img";

fn write(row: &Path, out: &Path, nodes: &str) -> Ran {
    let words = ["write".as_ref(), row.as_os_str(), out.as_os_str(), "--nodes".as_ref()];
    run(words.into_iter().chain([OsStr::new(nodes)]))
}

fn trees(out: &Path, option: Option<&str>) -> Ran {
    let words = ["trees".as_ref(), VOLUME.as_ref(), out.as_os_str()];
    run(words.into_iter().chain(option.map(OsStr::new)))
}

#[test]
fn write_overwrites_nothing() {
    let folder = scratch("write_overwrites_nothing");
    let path = |name: &str| folder.join(name);
    fs::write(path("file"), b"old").expect("a file");
    fs::create_dir(path("inner")).expect("a folder");
    symlink("nowhere", path("dangling")).expect("a link");
    symlink("file", path("link")).expect("a link");
    let before = file_names(&folder);
    for name in
        ["file", "inner", "dangling", "link", "inner/", "missing/out", "file/out", "missing/"]
    {
        assert_trouble(&write(Path::new(ROW), &path(name), "64"));
        assert_eq!(file_names(&folder), before, "{name}");
    }
    assert_eq!(fs::read(path("file")).expect("a file"), b"old");
    assert_eq!(fs::read_link(path("dangling")).expect("a link"), Path::new("nowhere"));
    assert!(file_names(&path("inner")).is_empty());
    assert_trouble(&write(Path::new(ROW), Path::new(""), "64"));
}

#[test]
fn write_makes_one_file_and_a_second_time_none() {
    let folder = scratch("write_makes_one_file");
    let out = folder.join("out");
    assert_eq!(write(Path::new(ROW), &out, "64").status, 0);
    let made = fs::read(&out).expect("a file");
    assert_eq!(made.len(), 64 * 512);
    assert_trouble(&write(Path::new(ROW), &out, "65"));
    assert_eq!(fs::read(&out).expect("a file"), made);
    assert_eq!(file_names(&folder), ["out"]);
}

/// A file beside OUT that the program did not make is not its to remove.
#[test]
fn write_removes_nothing_that_it_did_not_make() {
    let folder = scratch("write_removes_nothing");
    // The shell hands its own number on, which is in the name that the program drafts under.
    let line = "echo old > \"$2/.hfs-btree-$$-0.part\"
        exec \"$0\" write \"$1\" \"$2/out\" --nodes 64";
    let mut shell = Command::new("sh");
    shell.args(["-c", line]).arg(program().get_program());
    shell.current_dir(program().get_current_dir().expect("where the samples are"));
    let ran = crate::common::ran(shell.arg(ROW).arg(&folder).output().expect("a shell"));
    assert_eq!((ran.status, ran.err.as_str()), (0, ""));
    let names = file_names(&folder);
    assert_eq!(names.len(), 2, "{names:?}");
    assert_eq!(fs::read(folder.join(&names[0])).expect("a file"), b"old\n");
    assert_eq!(names[1], "out");
}

#[test]
fn an_out_of_any_bytes_is_said_in_one_line() {
    let folder = scratch("an_out_of_any_bytes");
    let ran = write(Path::new(ROW), &folder.join("first\nsecond"), "64");
    assert_eq!((ran.status, ran.err.as_str()), (0, ""));
    assert_eq!(ran.out.lines().count(), 1, "{ran:?}");
}

/// A name may have 255 bytes, and what is made beside it must not have more.
#[test]
fn an_out_with_the_longest_name_is_made() {
    let folder = scratch("an_out_with_the_longest_name");
    let ran = write(Path::new(ROW), &folder.join("n".repeat(255)), "64");
    assert_eq!((ran.status, ran.err.as_str()), (0, ""));
    assert_eq!(file_names(&folder), ["n".repeat(255).as_str()]);
}

#[test]
fn a_refused_row_makes_no_file() {
    let folder = scratch("a_refused_row");
    let row = sample("written_two_level.row");
    let mut wrong = [row.clone(), row.clone(), row.clone()];
    wrong[0].pop();
    wrong[1][0] = 8;
    wrong[2].rotate_left(20);
    for row in &wrong {
        let path = folder.join("row");
        fs::write(&path, row).expect("a file");
        let ran = write(&path, &folder.join("out"), "64");
        assert_eq!((ran.status, ran.err.as_str()), (3, ""), "{ran:?}");
        assert!(ran.out.starts_with("refused: number 19: "), "{ran:?}");
        assert_eq!(file_names(&folder), ["row"]);
    }
    for (nodes, number) in [("0", 1), ("1", 20), ("65537", 1), ("4294967295", 1)] {
        let ran = write(Path::new(ROW), &folder.join("out"), nodes);
        assert_eq!((ran.status, ran.err.as_str()), (3, ""), "{ran:?}");
        assert!(ran.out.starts_with(&format!("refused: number {number}: ")), "{ran:?}");
        assert_eq!(file_names(&folder), ["row"]);
    }
}

#[test]
fn trees_overwrites_nothing() {
    for there in ["extents.img", "catalog.img"] {
        let folder = scratch("trees_overwrites_nothing");
        fs::write(folder.join(there), b"old").expect("a file");
        assert_trouble(&trees(&folder, None));
        assert_eq!(file_names(&folder), [there]);
        assert_eq!(fs::read(folder.join(there)).expect("a file"), b"old");
        symlink("nowhere", folder.join("link")).expect("a link");
        for out in [there, "link", "missing/out"] {
            assert_trouble(&trees(&folder.join(out), None));
            assert_eq!(file_names(&folder), [there, "link"]);
        }
    }
}

#[test]
fn trees_makes_its_files_in_a_folder_new_or_old() {
    let folder = scratch("trees_makes_its_files");
    fs::write(folder.join("other"), b"old").expect("a file");
    for out in [folder.join("new"), folder.clone()] {
        let ran = trees(&out, None);
        assert_eq!((ran.status, ran.err.as_str()), (0, ""));
        for tree in ["extents.img", "catalog.img"] {
            assert!(file_names(&out).contains(&tree.into()), "{tree}");
        }
    }
    assert_eq!(file_names(&folder), ["catalog.img", "extents.img", "new", "other"]);
    assert_eq!(file_names(&folder.join("new")), ["catalog.img", "extents.img"]);
    let alone = folder.join("alone");
    assert_eq!(trees(&alone, Some("--extents-only")).status, 0);
    assert_eq!(file_names(&alone), ["extents.img"]);
}
