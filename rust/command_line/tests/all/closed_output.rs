//! What if standard output takes nothing more: a pipe that is closed, a disk that is full?

use crate::common::{assert_trouble, program, ran, run, scratch, Ran};
use std::fs::{self, File};
use std::io::Read;
use std::os::fd::OwnedFd;
use std::os::unix::net::UnixStream;
use std::path::{Path, PathBuf};
use std::process::{Child, Stdio};

/// More leaf records than a pipe holds back, by far.
const RECORDS: u32 = 100_000;

/// Commands and their status; the last two answer from trees that are not sound.
const ANSWERS: [(&str, i32); 11] = [
    ("--help", 0),
    ("check samples/l1.img", 0),
    ("list samples/three_level.img", 0),
    ("list samples/catalog_three_level.img --catalog --json", 0),
    ("find samples/l1.img 16 data 5", 0),
    ("find samples/l1.img 16 data 6", 1),
    ("salvage samples/l1.img 16 data 5", 0),
    ("block samples/volume_catalog_mended.img samples/l1.img 2 Heights data 0", 0),
    ("trees samples/l1.img samples/none", 3),
    ("list samples/l1.img --catalog", 1),
    ("find samples/l1.img 2 Heights --catalog --json", 3),
];

/// A sound image of so many leaf records, made by `write`.
fn large_image(folder: &Path) -> PathBuf {
    let record = |number: u32| {
        let [a, b, c, d] = number.to_be_bytes();
        [7, 0, a, b, c, d, 0, 1, 0, 1, 0, 1, 0, 2, 0, 2, 0, 3, 0, 3]
    };
    let row: Vec<u8> = (16..16 + RECORDS).flat_map(record).collect();
    let (row_path, image) = (folder.join("long.row"), folder.join("large.img"));
    fs::write(&row_path, row).expect("a file");
    let words = ["write".as_ref(), row_path.as_os_str(), image.as_os_str()];
    let ran = run(words.into_iter().chain(["--nodes".as_ref(), "8192".as_ref()]));
    assert_eq!((ran.status, ran.err.as_str()), (0, ""));
    image
}

/// Reads the first bytes and closes the pipe.
fn read_a_little(mut child: Child) -> Ran {
    let mut first = [0; 7];
    let mut pipe = child.stdout.take().expect("a pipe");
    pipe.read_exact(&mut first).expect("the first bytes");
    drop(pipe);
    ran(child.wait_with_output().expect("the program ends"))
}

#[test]
fn a_reader_that_stops_early_is_no_trouble() {
    let folder = scratch("a_reader_that_stops_early");
    let image = large_image(&folder);
    let whole = run(["list".as_ref(), image.as_os_str()]);
    assert!(whole.out.len() > 1 << 20 && whole.out.ends_with(&format!("records {RECORDS}\n")));
    for json in [None, Some("--json")] {
        let mut list = program();
        list.arg("list").arg(&image).args(json).stdout(Stdio::piped()).stderr(Stdio::piped());
        let ran = read_a_little(list.spawn().expect("the program starts"));
        assert_eq!((ran.status, ran.err.as_str()), (0, ""));
    }
}

#[test]
fn with_nobody_to_read_the_status_still_tells() {
    for (line, status) in ANSWERS {
        let (ours, theirs) = UnixStream::pair().expect("two ends");
        drop(ours);
        let mut command = program();
        command.args(line.split(' ')).stdout(OwnedFd::from(theirs));
        let ran = ran(command.output().expect("the program starts"));
        assert_eq!((ran.status, ran.err.as_str()), (status, ""), "{line}");
    }
}

#[test]
fn a_full_disk_is_trouble() {
    let folder = scratch("a_full_disk");
    let large = format!("list {}", large_image(&folder).display());
    let lines = ANSWERS.into_iter().map(|(line, _)| line).chain([large.as_str()]);
    for line in lines {
        let full = File::options().write(true).open("/dev/full").expect("Linux has it");
        let mut command = program();
        command.args(line.split(' ')).stdout(full);
        assert_trouble(&ran(command.output().expect("the program starts")));
    }
}

/// Whoever has no answer must not be left with a file that it cannot make again.
#[test]
fn a_full_disk_leaves_no_new_file() {
    let folder = scratch("a_full_disk_leaves_no_new_file");
    let out = folder.join("out");
    for line in ["write samples/written_two_level.row", "trees samples/volume.img"] {
        let full = File::options().write(true).open("/dev/full").expect("Linux has it");
        let mut command = program();
        command.args(line.split(' ')).arg(&out).stdout(full);
        if line.starts_with("write") {
            command.args(["--nodes", "64"]);
        }
        assert_trouble(&ran(command.output().expect("the program starts")));
        assert!(!out.exists(), "{line}");
    }
}
