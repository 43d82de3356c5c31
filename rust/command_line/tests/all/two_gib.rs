//! A file of 2 GiB and one byte, which is longer than any image.

use crate::common::{file_names, run, scratch, Ran};
use std::fs::{self, File};
use std::path::Path;

const TWO_GIB: u64 = 1 << 31;

/// The commands, with `@` for the file, and what each answers.
const TOO_LONG: [(&str, i32, &str); 14] = [
    ("check @", 1, "not sound: fault 1 at node 0, offset 0"),
    ("check @ --json", 1, "{\"answer\":\"not sound\",\"number\":1,"),
    ("list @", 1, "not sound: fault 1 at node 0, offset 0"),
    ("check --plus 32768 @", 1, "not sound: fault 1 at node 0, offset 0"),
    ("check --plus 512 @", 1, "not sound: fault 1 at node 0, offset 0"),
    ("check --catalog @", 1, "not sound: fault 1 at node 0, offset 0"),
    ("find @ 16 data 5", 3, "refused: fault 1 at node 0, offset 0"),
    ("find --catalog @ 2 Heights", 3, "refused: fault 1 at node 0, offset 0"),
    ("salvage @ 16 data 5", 3, "refused: fault 1 at node 0, offset 0"),
    ("salvage --catalog @ 2 Heights", 3, "refused: fault 1 at node 0, offset 0"),
    ("block @ samples/l1.img 2 Heights data 7", 3, "refused: catalog tree: fault 1 at node 0"),
    (
        "block samples/volume_catalog_mended.img @ 2 Heights data 7",
        3,
        "refused: extents tree: fault 1 at node 0",
    ),
    ("trees @ OUT", 3, "refused: no HFS volume: the signature at byte 1024 is 0000"),
    ("write @ OUT --nodes 64", 3, "refused: number 19: "),
];

fn ask(command: &str, file: &Path) -> Ran {
    let out = file.with_file_name("out");
    let word = |word| match word {
        "@" => file.into(),
        "OUT" => out.clone().into_os_string(),
        _ => word.into(),
    };
    run(command.split(' ').map(word))
}

fn assert_answers(command: &str, file: &Path, status: i32, starts: &str) {
    let ran = ask(command, file);
    assert_eq!((ran.status, ran.err.as_str()), (status, ""), "{command}: {ran:?}");
    assert!(ran.out.starts_with(starts), "{command}: {ran:?}");
    assert!(!ran.out.contains("found") && !ran.out.contains("absent"), "{command}: {ran:?}");
    assert_eq!(file_names(file.parent().expect("a folder")), ["long"], "{command}");
}

// One test, so that no two at once hold two gigabytes.
#[test]
fn two_gib_and_one_byte_and_two_gib() {
    let folder = scratch("two_gib");
    let path = folder.join("long");
    let file = File::create(&path).expect("a file");
    file.set_len(TWO_GIB + 1).expect("a sparse file");
    for (command, status, starts) in TOO_LONG {
        assert_answers(command, &path, status, starts);
    }
    // Exactly as long as the longest image of the largest nodes: all zeros have no header.
    file.set_len(TWO_GIB).expect("a sparse file");
    let starts = "not sound: fault 2 at node 0, offset 0";
    assert_answers("check --plus 32768 @", &path, 1, starts);
    fs::remove_dir_all(&folder).expect("nothing of it stays");
}
