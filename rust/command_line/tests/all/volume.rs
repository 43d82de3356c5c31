//! `trees` of the sample volume, which an independent implementation has made.

use crate::common::json::{self, number, object, text};
use crate::common::{extents, run, sample, scratch, Ran};
use std::fs;
use std::path::{Path, PathBuf};

/// Where the first allocation block stands, and how long each is.
const FIRST_BYTE: usize = 2_048;
const BLOCK_SIZE: usize = 512;

/// Node and offset of each length byte in which the catalog on the volume differs from the mended one.
const MENDED: [(usize, usize); 15] = [
    (1, 14),
    (1, 108),
    (1, 278),
    (6, 14),
    (6, 132),
    (6, 250),
    (6, 368),
    (10, 132),
    (10, 250),
    (10, 368),
    (34, 14),
    (34, 272),
    (58, 14),
    (58, 142),
    (58, 236),
];

fn path(file: &Path) -> &str {
    file.to_str().expect("the path is text")
}

/// The folder with the trees of the sample volume.
fn cut_out(test: &str) -> PathBuf {
    let folder = scratch(test).join("trees");
    assert_eq!(run(["trees", "samples/volume.img", path(&folder)]).status, 0);
    folder
}

fn read(file: PathBuf) -> Vec<u8> {
    fs::read(&file).expect("the file is there")
}

/// The catalog's pieces: three in the master directory block, the others in extents records of file 4.
fn catalog_pieces(volume: &[u8]) -> Vec<[u32; 2]> {
    let extents_tree = &volume[FIRST_BYTE..][..6_144];
    let mut pieces = extents::pairs(&volume[1_024 + 150..][..12]);
    for record in reference::leaf_records(extents_tree) {
        if (record.key.file, record.key.fork) == (4, 0x00) {
            pieces.extend(extents::pairs(&record.data));
        }
    }
    pieces.retain(|[_, count]| *count > 0);
    pieces
}

#[test]
fn the_extents_overflow_file_stands_at_the_first_block() {
    let folder = cut_out("the_extents_overflow_file_stands_at_the_first_block");
    let volume = sample("volume.img");
    assert!(read(folder.join("extents.img")) == volume[FIRST_BYTE..][..6_144]);
    assert_eq!(fs::read_dir(folder).expect("a folder").count(), 2, "two files and no more");
}

#[test]
fn the_catalog_differs_from_the_mended_one_in_length_bytes() {
    let folder = cut_out("the_catalog_differs_from_the_mended_one_in_length_bytes");
    let mut expected = sample("volume_catalog_mended.img");
    for (node, offset) in MENDED {
        expected[512 * node + offset] += 1;
    }
    assert!(read(folder.join("catalog.img")) == expected);
}

#[test]
fn the_catalog_is_put_together_from_its_pieces() {
    let folder = cut_out("the_catalog_is_put_together_from_its_pieces");
    let volume = sample("volume.img");
    let pieces = catalog_pieces(&volume);
    assert_eq!(pieces.len(), 36);
    let piece = |[first, count]: &[u32; 2]| {
        &volume[FIRST_BYTE + BLOCK_SIZE * *first as usize..][..BLOCK_SIZE * *count as usize]
    };
    let catalog: Vec<&[u8]> = pieces.iter().map(piece).collect();
    assert!(read(folder.join("catalog.img")) == catalog.concat());
}

#[test]
fn what_is_said() {
    let pieces = catalog_pieces(&sample("volume.img"));
    let folder = scratch("what_is_said");
    let said = run(["trees", "samples/volume.img", path(&folder.join("text"))]);
    let lines = format!(
        "extents.img: sound, 6144 bytes, pieces 0 12\n\
         catalog.img: not checked, 52224 bytes, pieces {}\n",
        extents::shown(&pieces)
    );
    assert_eq!(said, Ran { status: 0, out: lines, err: String::new() });

    let said = run(["trees", "--json", "samples/volume.img", path(&folder.join("json"))]);
    let tree = |file: &str, verdict: &str, bytes: u32, pieces: &[[u32; 2]]| {
        object([
            ("answer", text("cut")),
            ("file", text(file)),
            ("verdict", text(verdict)),
            ("bytes", number(bytes)),
            ("pieces", extents::value(pieces)),
        ])
    };
    let expected = [
        tree("extents.img", "sound", 6_144, &[[0, 12]]),
        tree("catalog.img", "not checked", 52_224, &pieces),
    ];
    assert_eq!((said.status, &*said.err), (0, ""));
    assert_eq!(json::read_lines(&said.out), expected);
}

#[test]
fn checks_of_both_trees() {
    let folder = cut_out("checks_of_both_trees");
    let said = run(["check", path(&folder.join("extents.img"))]);
    let line = "sound: 12 nodes, 7 free, depth 2, 48 leaf records\n";
    assert_eq!((said.status, &*said.out), (0, line));

    let said = run(["check", "--catalog", path(&folder.join("catalog.img"))]);
    let start = "not sound: fault 5 at node 1, offset 0 (byte 512): ";
    assert_eq!((said.status, said.out.starts_with(start)), (1, true), "{}", said.out);

    let said = run(["check", "--catalog", "samples/volume_catalog_mended.img"]);
    let line = "sound: 102 nodes, 86 free, depth 3, 36 leaf records\n";
    assert_eq!((said.status, &*said.out), (0, line));
}

/// The listing of the extents tree on the volume is the reference's.
#[test]
fn the_listing_of_the_extents() {
    let folder = cut_out("the_listing_of_the_extents");
    let said = run(["list", path(&folder.join("extents.img"))]);
    let expected = reference::listing(&sample("volume.img")[FIRST_BYTE..][..6_144]);
    assert_eq!(said, Ran { status: 0, out: expected, err: String::new() });
}

#[test]
fn extents_only() {
    let folder = scratch("extents_only").join("trees");
    let said = run(["trees", "--extents-only", "samples/volume.img", path(&folder)]);
    let line = "extents.img: not checked, 6144 bytes, pieces 0 12\n";
    assert_eq!(said, Ran { status: 0, out: line.to_string(), err: String::new() });
    assert!(read(folder.join("extents.img")) == sample("volume.img")[FIRST_BYTE..][..6_144]);
    assert_eq!(fs::read_dir(folder).expect("a folder").count(), 1);
}
