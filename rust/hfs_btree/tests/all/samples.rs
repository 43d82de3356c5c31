//! The sample images of the repository, as the generator makes them, and what the proved reader says of them.

use hfs_btree::block::{block, Answer, Image};
use hfs_btree::editions::{check, needed_work, Edition, Place, Verdict};
use hfs_btree::write_tree;
use images::{bench, catalog, rows, samples, volume, Key};
use std::path::Path;

fn sample(name: &str) -> Vec<u8> {
    let folder = Path::new(env!("CARGO_MANIFEST_DIR")).join("../../samples");
    std::fs::read(folder.join(name)).expect(name)
}

fn says(edition: Edition, node_size: u32, image: &[u8]) -> (u32, u32, u32) {
    let mut work = vec![0; needed_work(node_size, image.len())];
    let Verdict { number, place: Place { node, offset } } =
        check(edition, node_size, image, &mut work);
    (number, node, offset)
}

#[test]
fn of_hfs() {
    let pointer_below = bench::two_leaves_with_pointer(1, Key::new(16, 0x00, 6));
    let all = [
        ("l1.img", bench::l1(), (0, 0, 0)),
        ("two_leaves.img", bench::two_leaves(), (0, 0, 0)),
        ("two_leaves_pointer_below_first_key.img", pointer_below, (6, 3, 14)),
        ("three_level.img", samples::three_level().image, (0, 0, 0)),
    ];
    for (name, made, said) in all {
        assert_eq!(sample(name), made, "{name}");
        assert_eq!(says(Edition::Hfs, 512, &made), said, "{name}");
    }
}

#[test]
fn of_hfs_plus() {
    let made = samples::two_level_plus().image;
    assert_eq!(sample("plus_4096_two_level.img"), made);
    assert_eq!(says(Edition::HfsPlus, 4_096, &made), (0, 0, 0));
    // A header that has another node size, or the key length of the other edition.
    assert_eq!(says(Edition::HfsPlus, 512, &made), (2, 0, 0));
    assert_eq!(says(Edition::Hfs, 512, &made), (2, 0, 0));
}

#[test]
fn of_the_catalog() {
    let all = [
        ("catalog_cartridge.img", catalog::bench::cartridge()),
        ("catalog_three_level.img", catalog::samples::three_level().image),
    ];
    for (name, made) in all {
        assert_eq!(sample(name), made, "{name}");
        let mut work = vec![0; needed_work(512, made.len())];
        let sound = Verdict { number: 0, place: Place { node: 0, offset: 0 } };
        assert_eq!(hfs_btree::catalog::check(&made, &mut work), sound, "{name}");
        // A header with the key length of the other tree.
        assert_eq!(says(Edition::Hfs, 512, &made), (2, 0, 0), "{name}");
    }
}

#[test]
fn of_a_volume() {
    let (catalog, extents) = (sample("block_catalog.img"), sample("block_extents.img"));
    assert_eq!(catalog, volume::bench::cartridge_catalog());
    assert_eq!(extents, volume::bench::cartridge_extents());
    assert_eq!(says(Edition::Hfs, 512, &extents), (0, 0, 0));
    let (mut catalog_work, mut extents_work) = ([0], [0]);
    let mut ask = |file_block| {
        let work = (&mut catalog_work[..], &mut extents_work[..]);
        block(&catalog, work.0, &extents, work.1, 2, b"Heights", 0x00, file_block)
    };
    // The last block of the file record, the first of an extents record, and none.
    assert_eq!((ask(4).image, ask(4).volume_block), (Image::Catalog, 40));
    assert_eq!((ask(5).image, ask(5).volume_block), (Image::Extents, 50));
    assert_eq!(ask(18).answer, Answer::NotCovered);
}

#[test]
fn of_a_row() {
    let row = sample("written_two_level.row");
    assert_eq!(row, rows::two_level().bytes);
    let mut made = vec![0xA5; rows::TWO_LEVEL_NODES * 512];
    assert_eq!(write_tree(&row, &mut made).number, 0);
    assert_eq!(sample("written_two_level.img"), made);
    assert_eq!(says(Edition::Hfs, 512, &made), (0, 0, 0));
}
