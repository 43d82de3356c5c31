//! Do `--help` and `--version` answer, and does the help name all that there is?

use crate::common::{assert_trouble, run, Ran};

fn assert_answers(words: &[&str]) -> String {
    let Ran { status, out, err } = run(words);
    assert_eq!((status, err.as_str()), (0, ""), "{words:?}");
    assert!(out.ends_with('\n'), "{words:?}");
    out
}

#[test]
fn help_names_every_command_and_every_option() {
    let help = assert_answers(&["--help"]);
    for command in ["check", "list", "find", "salvage", "block", "write", "trees"] {
        assert!(help.lines().any(|line| line.starts_with(&format!("  {command} "))), "{command}");
    }
    let options = ["--catalog", "--plus SIZE", "--name-hex HEX", "--nodes N", "--extents-only"];
    for option in options.into_iter().chain(["--json", "--"]) {
        assert!(help.lines().any(|line| line.starts_with(&format!("  {option} "))), "{option}");
    }
    for status in
        ["0 sound, 1 not", "0 found, 1 absent, 3 refused", "0 seen, 1 not seen, 3 refused"]
    {
        assert!(help.contains(status), "{status}");
    }
}

#[test]
fn help_and_version_of_the_program_and_of_a_command() {
    let help = assert_answers(&["--help"]);
    for words in [&["-h"][..], &["check", "--help"], &["find", "-h", "samples/l1.img"]] {
        assert_eq!(assert_answers(words), help);
    }
    let version = assert_answers(&["--version"]);
    assert_eq!(version, concat!("hfs-btree ", env!("CARGO_PKG_VERSION"), "\n"));
    assert_eq!(assert_answers(&["-V"]), version);
}

/// A script that asks for names would take the help's status for found.
#[test]
fn a_name_that_looks_like_help_is_none() {
    for name in ["-h", "--help", "-V", "--version"] {
        let find = ["find", "--catalog", "samples/catalog_cartridge.img", "2"];
        assert_trouble(&run([&find[..], &[name]].concat()));
        assert_eq!(run([&find[..], &["--", name]].concat()).status, 1, "{name}");
    }
}
