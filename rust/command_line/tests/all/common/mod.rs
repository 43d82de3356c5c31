//! Runs the program as a user would: a command line in, output and exit status out.

pub mod answer;
pub mod entry;
pub mod extents;
pub mod json;
pub mod names;

use images::{Format, Tree};
use std::ffi::{OsStr, OsString};
use std::fs;
use std::path::{Path, PathBuf};
use std::process::{Command, Output};

/// What a run left behind.
#[derive(Debug, PartialEq, Eq)]
pub struct Ran {
    pub status: i32,
    pub out: String,
    pub err: String,
}

/// The program, to be run where the samples are `samples/..`.
pub fn program() -> Command {
    let mut command = Command::new(env!("CARGO_BIN_EXE_hfs-btree"));
    command.current_dir(Path::new(env!("CARGO_MANIFEST_DIR")).join("../.."));
    command
}

pub fn run<Word: AsRef<OsStr>>(words: impl IntoIterator<Item = Word>) -> Ran {
    ran(program().args(words).output().expect("the program starts"))
}

pub fn ran(output: Output) -> Ran {
    let text = |bytes| String::from_utf8(bytes).expect("the program writes UTF-8");
    let status = output.status.code().expect("no signal ended the program");
    Ran { status, out: text(output.stdout), err: text(output.stderr) }
}

/// The options by which a file is of this format.
pub fn options(format: Format) -> Vec<String> {
    match (format.tree, format == Format::HFS) {
        (Tree::Catalog, _) => vec!["--catalog".to_string()],
        (Tree::Extents, true) => vec![],
        (Tree::Extents, false) => vec![format!("--plus={}", format.node_size)],
    }
}

pub fn sample(name: &str) -> Vec<u8> {
    let folder = Path::new(env!("CARGO_MANIFEST_DIR")).join("../../samples");
    fs::read(folder.join(name)).expect(name)
}

/// An empty folder for a test of this name.
pub fn scratch(test: &str) -> PathBuf {
    let folder = Path::new(env!("CARGO_TARGET_TMPDIR")).join(test);
    let _ = fs::remove_dir_all(&folder);
    fs::create_dir_all(&folder).expect("a folder can be made");
    folder
}

/// The names of what a folder has, in their order.
pub fn file_names(folder: &Path) -> Vec<OsString> {
    let entries = fs::read_dir(folder).expect("a folder");
    let mut names: Vec<OsString> =
        entries.map(|entry| entry.expect("an entry").file_name()).collect();
    names.sort();
    names
}

/// An error of a file or of usage: status 2, one line on standard error, nothing on standard output.
pub fn assert_trouble(ran: &Ran) {
    let Ran { status, out, err } = ran;
    assert_eq!((*status, out.as_str()), (2, ""), "{ran:?}");
    assert!(err.starts_with("hfs-btree: ") && err.ends_with('\n'), "{ran:?}");
    assert_eq!(err.lines().count(), 1, "{ran:?}");
}
