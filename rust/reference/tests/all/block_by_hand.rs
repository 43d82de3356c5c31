//! Blocks of files on small volumes, with the numbers that the request's words have for them.

use images::catalog::bench as catalogs;
use images::catalog::entry::Pairs;
use images::volume::bench::{cartridge_catalog, cartridge_extents, catalog_of, extents_of};
use images::{bench, Key};
use reference::block::{Image, Mapping};
use reference::{needed_work, Place};
use std::ops::Range;

const DATA: u8 = 0x00;
const RESOURCE: u8 = 0xFF;
const NONE: (u16, u16) = (0, 0);
const NO_BLOCKS: Pairs = [NONE; 3];
const HEIGHTS: (u32, &[u8]) = (2, b"Heights");
const LEVELS: (u32, &[u8]) = (2, b"Levels");

/// With just the needed working bytes.
fn block(catalog: &[u8], extents: &[u8], key: (u32, &[u8]), fork: u8, block: u16) -> Mapping {
    let mut catalog_work = vec![0xA5; needed_work(catalog.len())];
    let mut extents_work = vec![0x5A; needed_work(extents.len())];
    reference::block(
        catalog,
        &mut catalog_work,
        extents,
        &mut extents_work,
        key.0,
        key.1,
        fork,
        block,
    )
}

/// Asks the cartridge.
fn cartridge(key: (u32, &[u8]), fork: u8, file_block: u16) -> Mapping {
    block(&cartridge_catalog(), &cartridge_extents(), key, fork, file_block)
}

fn refused(number: u32, image: Image, node: u32, offset: u32) -> Mapping {
    Mapping { number, image, place: Place { node, offset }, volume_block: 0, part: 0..0 }
}

fn covered(image: Image, place: (u32, u32), volume_block: u32, part: Range<usize>) -> Mapping {
    let (node, offset) = place;
    Mapping { number: 0, image, place: Place { node, offset }, volume_block, part }
}

const NOT_COVERED: u32 = 17;
const ABOVE_LAST_BLOCK: u32 = 18;
const NOT_A_FILE: u32 = 24;

#[track_caller]
fn each_gives(
    key: (u32, &[u8]),
    fork: u8,
    blocks: &[(u16, u32)],
    image: Image,
    place: (u32, u32),
    part: Range<usize>,
) {
    for &(file_block, volume_block) in blocks {
        let expected = covered(image, place, volume_block, part.clone());
        assert_eq!(cartridge(key, fork, file_block), expected, "block {file_block}");
    }
}

#[test]
fn first_blocks_are_in_the_file_record() {
    // The record of `Heights` starts at 154 of node 1, and its data 14 bytes on.
    let data = 512 + 154 + 14;
    let blocks = [(0, 20), (1, 21), (2, 30), (3, 31), (4, 40)];
    each_gives(HEIGHTS, DATA, &blocks, Image::Catalog, (1, 154), data + 74..data + 86);
    each_gives(HEIGHTS, RESOURCE, &[(0, 10)], Image::Catalog, (1, 154), data + 86..data + 98);
    // The key of `Levels` has 13 bytes and a pad.
    let data = 512 + 270 + 14;
    let blocks = [(0, 65_530), (3, 65_533), (4, 65_534), (5, 65_535)];
    each_gives(LEVELS, DATA, &blocks, Image::Catalog, (1, 270), data + 74..data + 86);
    // A name in another case is the same name.
    let expected = covered(Image::Catalog, (1, 270), 65_530, data + 74..data + 86);
    assert_eq!(cartridge((2, b"lEVELS"), DATA, 0), expected);
}

#[test]
fn later_blocks_are_in_extents_records() {
    let leaf = |number: usize, record: usize| {
        let at = 512 * number + 14 + 20 * record + 8;
        at..at + 12
    };
    let blocks = [(5, 50), (6, 51), (7, 52), (8, 60), (9, 70), (10, 71)];
    each_gives(HEIGHTS, DATA, &blocks, Image::Extents, (2, 14), leaf(2, 0));
    each_gives(HEIGHTS, DATA, &[(11, 80), (14, 83)], Image::Extents, (2, 34), leaf(2, 1));
    // The second pair of this record has no blocks.
    let blocks = [(15, 90), (16, 91), (17, 95)];
    each_gives(HEIGHTS, DATA, &blocks, Image::Extents, (3, 14), leaf(3, 0));
    let blocks = [(1, 11), (2, 12), (3, 13)];
    each_gives(HEIGHTS, RESOURCE, &blocks, Image::Extents, (3, 34), leaf(3, 1));
}

#[test]
fn blocks_that_nothing_covers() {
    let expected = refused(NOT_COVERED, Image::Extents, 0, 0);
    for (key, fork, file_block) in [
        (HEIGHTS, DATA, 18),
        (HEIGHTS, DATA, 65_535),
        // The record of the resource fork is the highest key not above, and ends before the block.
        (HEIGHTS, RESOURCE, 4),
        (HEIGHTS, RESOURCE, 65_535),
        // Of file 17 there is no extents record, and the highest key not above is of file 16.
        (LEVELS, DATA, 7),
        (LEVELS, RESOURCE, 0),
    ] {
        assert_eq!(cartridge(key, fork, file_block), expected, "{key:?} {fork} {file_block}");
    }
}

#[test]
fn volume_blocks_above_65535() {
    let expected = refused(ABOVE_LAST_BLOCK, Image::Catalog, 0, 0);
    assert_eq!(cartridge(LEVELS, DATA, 6), expected);
    let catalog = catalog_of(&[(b"file", 20, [NO_BLOCKS; 2])]);
    let extents = extents_of(&[(Key::new(20, DATA, 0), [(65_535, 2), (65_534, 2), (7, 1)])]);
    let ask = |file_block| block(&catalog, &extents, (2, b"file"), DATA, file_block);
    let found = |volume_block| covered(Image::Extents, (1, 14), volume_block, 534..546);
    assert_eq!(ask(0), found(65_535));
    assert_eq!(ask(1), refused(ABOVE_LAST_BLOCK, Image::Extents, 0, 0));
    assert_eq!((ask(2), ask(3), ask(4)), (found(65_534), found(65_535), found(7)));
    assert_eq!(ask(5), refused(NOT_COVERED, Image::Extents, 0, 0));
}

#[test]
fn keys_that_are_not_in_the_catalog() {
    for key in [(2, &b"Height"[..]), (2, b"Heights2"), (3, b"Heights"), (0, b""), (2, b"Zebra")] {
        assert_eq!(cartridge(key, DATA, 0), refused(12, Image::Catalog, 1, 0), "{key:?}");
    }
    // An empty tree has no last node read.
    let empty = catalogs::empty_tree(1);
    let said = block(&empty, &cartridge_extents(), HEIGHTS, DATA, 0);
    assert_eq!(said, refused(12, Image::Catalog, 0, 0));
    // In two levels the last node read is a leaf, or the root where the key is below all.
    let two_leaves = catalogs::two_leaves();
    let said = block(&two_leaves, &cartridge_extents(), (2, b"cats"), DATA, 0);
    assert_eq!(said, refused(12, Image::Catalog, 2, 0));
    let said = block(&two_leaves, &cartridge_extents(), (1, b"cats"), DATA, 0);
    assert_eq!(said, refused(12, Image::Catalog, 1, 0));
}

#[test]
fn records_that_are_no_file() {
    let expected = refused(NOT_A_FILE, Image::Catalog, 0, 0);
    for fork in [DATA, RESOURCE] {
        for file_block in [0, 65_535] {
            let directory = (1, &b"Cartridge"[..]);
            assert_eq!(cartridge(directory, fork, file_block), expected);
            assert_eq!(cartridge((2, b""), fork, file_block), expected);
        }
    }
    // The threads of files.
    let threads = catalogs::leaf_with(2);
    assert_eq!(block(&threads, &cartridge_extents(), (16, b""), DATA, 0), expected);
}

#[test]
fn asked_forks_and_names() {
    let expected = refused(11, Image::Catalog, 0, 0);
    for fork in 0x01..=0xFE {
        assert_eq!(cartridge(HEIGHTS, fork, 0), expected, "fork {fork}");
    }
    let name = [b'n'; 32];
    assert_eq!(cartridge((2, &name), DATA, 0), expected);
    assert_eq!(cartridge((2, &name), 0x01, 0), expected);
    // A name of 31 bytes is looked up.
    assert_eq!(cartridge((2, &name[..31]), DATA, 0), refused(12, Image::Catalog, 1, 0));
    let longest = catalog_of(&[(&name[..31], 20, [[(9, 1), NONE, NONE], NO_BLOCKS])]);
    // The key has 38 bytes, so the data start at 512 + 14 + 38.
    let said = block(&longest, &bench::e1(), (2, &name[..31]), DATA, 0);
    assert_eq!(said, covered(Image::Catalog, (1, 14), 9, 638..650));
}

/// A volume of one file, number 20, with these first extents of its data fork and these records.
fn data_fork(first: Pairs, records: &[(Key, Pairs)]) -> impl Fn(u16) -> Mapping {
    let catalog = catalog_of(&[(b"file", 20, [first, NO_BLOCKS])]);
    let extents = extents_of(records);
    move |file_block| block(&catalog, &extents, (2, b"file"), DATA, file_block)
}

/// Of one file at 14: the key has 11 bytes and a pad.
fn in_catalog(volume_block: u32) -> Mapping {
    covered(Image::Catalog, (1, 14), volume_block, 612..624)
}

fn in_extents(record: u32, volume_block: u32) -> Mapping {
    let offset = 14 + 20 * record;
    let at = 512 + offset as usize + 8;
    covered(Image::Extents, (1, offset), volume_block, at..at + 12)
}

const UNCOVERED: Mapping = Mapping {
    number: NOT_COVERED,
    image: Image::Extents,
    place: Place { node: 0, offset: 0 },
    volume_block: 0,
    part: 0..0,
};

#[test]
fn pairs_without_blocks() {
    let ask = data_fork([(1, 0), (2, 0), (300, 2)], &[]);
    assert_eq!((ask(0), ask(1), ask(2)), (in_catalog(300), in_catalog(301), UNCOVERED));
    let ask = data_fork([(300, 1), (2, 0), (400, 1)], &[]);
    assert_eq!((ask(0), ask(1), ask(2)), (in_catalog(300), in_catalog(400), UNCOVERED));
    // A file record without blocks leaves block 0 to the extents.
    let ask = data_fork(NO_BLOCKS, &[(Key::new(20, DATA, 0), [NONE, (300, 1), NONE])]);
    assert_eq!((ask(0), ask(1)), (in_extents(0, 300), UNCOVERED));
    // An extents record without blocks covers none, and hides the one before it.
    let records =
        [(Key::new(20, DATA, 1), [(300, 9), NONE, NONE]), (Key::new(20, DATA, 4), NO_BLOCKS)];
    let ask = data_fork([(100, 1), NONE, NONE], &records);
    assert_eq!((ask(1), ask(3)), (in_extents(0, 300), in_extents(0, 302)));
    assert_eq!((ask(4), ask(5), ask(9)), (UNCOVERED, UNCOVERED, UNCOVERED));
}

#[test]
fn gaps_and_overlaps() {
    let first = [(100, 3), NONE, NONE];
    let records = [
        // Below the sum of the file record, which covers all that it can.
        (Key::new(20, DATA, 1), [(200, 4), NONE, NONE]),
        (Key::new(20, DATA, 4), [(300, 2), NONE, NONE]),
        (Key::new(20, DATA, 8), [(400, 1), NONE, NONE]),
    ];
    let ask = data_fork(first, &records);
    assert_eq!((ask(0), ask(1), ask(2)), (in_catalog(100), in_catalog(101), in_catalog(102)));
    assert_eq!(ask(3), in_extents(0, 202));
    // Both go past block 4; the one with the higher key covers it.
    assert_eq!((ask(4), ask(5)), (in_extents(1, 300), in_extents(1, 301)));
    assert_eq!((ask(6), ask(7)), (UNCOVERED, UNCOVERED));
    assert_eq!((ask(8), ask(9)), (in_extents(2, 400), UNCOVERED));
}

#[test]
fn records_of_others_right_below() {
    let blocks = [(500, 9), NONE, NONE];
    // Another file, and the data fork where the resource fork is asked.
    let ask = data_fork(NO_BLOCKS, &[(Key::new(19, DATA, 0), blocks)]);
    assert_eq!(ask(0), UNCOVERED);
    let ask = data_fork(NO_BLOCKS, &[(Key::new(19, RESOURCE, 0), blocks)]);
    assert_eq!(ask(0), UNCOVERED);
    let ask = data_fork(NO_BLOCKS, &[(Key::new(20, RESOURCE, 0), blocks)]);
    assert_eq!(ask(65_535), UNCOVERED);
    let catalog = catalog_of(&[(b"file", 20, [NO_BLOCKS; 2])]);
    let extents = extents_of(&[(Key::new(20, DATA, 0), blocks)]);
    assert_eq!(block(&catalog, &extents, (2, b"file"), RESOURCE, 3), UNCOVERED);
    // All keys are above.
    let ask = data_fork(NO_BLOCKS, &[(Key::new(20, DATA, 1), blocks)]);
    assert_eq!((ask(0), ask(1)), (UNCOVERED, in_extents(0, 500)));
    // An empty tree.
    assert_eq!(data_fork(NO_BLOCKS, &[])(0), UNCOVERED);
}

#[test]
fn counts_that_add_up_above_65535() {
    let ask = data_fork([(0, 40_000), (100, 65_535), (200, 65_535)], &[]);
    assert_eq!((ask(39_999), ask(40_000)), (in_catalog(39_999), in_catalog(100)));
    assert_eq!(ask(65_535), in_catalog(25_635));
    // From the last start block there are: start and counts do not wrap.
    let last = [(7, 65_535), (9, 65_535), (11, 65_535)];
    let ask = data_fork(NO_BLOCKS, &[(Key::new(20, DATA, 65_535), last)]);
    assert_eq!((ask(65_534), ask(65_535)), (UNCOVERED, in_extents(0, 7)));
    let ask = data_fork(NO_BLOCKS, &[(Key::new(20, DATA, 0), last)]);
    assert_eq!((ask(65_528), ask(65_535)), (in_extents(0, 65_535), in_extents(0, 9)));
    assert_eq!(ask(65_529), refused(ABOVE_LAST_BLOCK, Image::Extents, 0, 0));
}

/// What a call leaves in the bytes lent for each image, of which the last in each is not needed.
fn leaves(catalog: &[u8], extents: &[u8], key: (u32, &[u8]), fork: u8) -> (u32, Image, Vec<u8>) {
    let mut lent = [0x11, 0x12, 0x21, 0x22];
    let (catalog_work, extents_work) = lent.split_at_mut(2);
    let said =
        reference::block(catalog, catalog_work, extents, extents_work, key.0, key.1, fork, 0);
    (said.number, said.image, lent.to_vec())
}

/// The catalog of the cartridge has two nodes, its extents four.
#[test]
fn working_bytes_of_each_image() {
    let (catalog, extents) = (&cartridge_catalog()[..], &cartridge_extents()[..]);
    let marked = |number, image| (number, image, vec![0xC0, 0x12, 0xF0, 0x22]);
    assert_eq!(leaves(catalog, extents, HEIGHTS, DATA), marked(0, Image::Catalog));
    assert_eq!(leaves(catalog, extents, LEVELS, RESOURCE), marked(17, Image::Extents));
    assert_eq!(leaves(catalog, extents, (2, b""), DATA), marked(24, Image::Catalog));
    assert_eq!(leaves(catalog, extents, (2, b"none"), DATA), marked(12, Image::Catalog));
    let untouched = vec![0x11, 0x12, 0x21, 0x22];
    let refused = (11, Image::Catalog, untouched.clone());
    assert_eq!(leaves(&[], &[], HEIGHTS, 0x01), refused);
    assert_eq!(leaves(&[], &[], (2, &[b'n'; 32]), DATA), refused);
    assert_eq!(leaves(&[], &[], HEIGHTS, DATA), (1, Image::Catalog, untouched));
    // A fault in the nodes of one image, or in both.
    let (no_catalog, no_extents) = (&[0; 512][..], &bench::l1_with_back_link_1()[..]);
    let first = vec![0x00, 0x12, 0x21, 0x22];
    assert_eq!(leaves(no_catalog, extents, HEIGHTS, DATA), (2, Image::Catalog, first.clone()));
    assert_eq!(leaves(no_catalog, no_extents, HEIGHTS, DATA), (2, Image::Catalog, first));
    let second = vec![0xC0, 0x12, 0x00, 0x22];
    assert_eq!(leaves(catalog, no_extents, HEIGHTS, DATA), (7, Image::Extents, second.clone()));
    // Even where the key is absent or is no file.
    assert_eq!(leaves(catalog, no_extents, (2, b""), DATA), (7, Image::Extents, second.clone()));
    assert_eq!(leaves(catalog, no_extents, (2, b"none"), DATA), (7, Image::Extents, second));
    let length = vec![0xC0, 0x12, 0x21, 0x22];
    assert_eq!(leaves(catalog, &[0; 511], HEIGHTS, DATA), (1, Image::Extents, length));
}

#[test]
fn too_few_working_bytes() {
    let (catalog, extents) = (cartridge_catalog(), cartridge_extents());
    let ask = |catalog: &[u8], catalog_work: &mut [u8], extents_work: &mut [u8]| {
        let (parent, name) = HEIGHTS;
        reference::block(catalog, catalog_work, &extents, extents_work, parent, name, DATA, 0)
    };
    let mut extents_work = [0x21];
    let said = ask(&catalog, &mut [], &mut extents_work);
    assert_eq!((said, extents_work), (refused(16, Image::Catalog, 0, 0), [0x21]));
    let said = ask(&catalog, &mut [], &mut []);
    assert_eq!(said, refused(16, Image::Catalog, 0, 0));
    let mut catalog_work = [0x11];
    let said = ask(&catalog, &mut catalog_work, &mut []);
    assert_eq!((said, catalog_work), (refused(16, Image::Extents, 0, 0), [0xC0]));
    // A wrong length comes before, and a fault in the catalog's nodes before the extents' bytes.
    let said = ask(&[0; 511], &mut [], &mut []);
    assert_eq!(said, refused(1, Image::Catalog, 0, 0));
    let said = ask(&[0; 512], &mut catalog_work, &mut []);
    assert_eq!((said, catalog_work), (refused(2, Image::Catalog, 0, 0), [0x00]));
}

#[test]
fn faults_name_their_image_and_place() {
    let (catalog, extents) = (cartridge_catalog(), cartridge_extents());
    let faulty_catalog = catalogs::cartridge_with_back_link_1();
    let said = block(&faulty_catalog, &extents, HEIGHTS, DATA, 0);
    assert_eq!(said, refused(7, Image::Catalog, 1, 4));
    let said = block(&catalog, &bench::l1_with_back_link_1(), HEIGHTS, DATA, 0);
    assert_eq!(said, refused(7, Image::Extents, 1, 4));
    let said = block(&faulty_catalog, &bench::e1_with_free_1(), HEIGHTS, DATA, 0);
    assert_eq!(said, refused(7, Image::Catalog, 1, 4));
    let said = block(&catalog, &bench::e1_with_map_byte(0xC0), HEIGHTS, DATA, 0);
    assert_eq!(said, refused(9, Image::Extents, 0, 0xF8));
    // Each image in the other's place.
    assert_eq!(block(&extents, &catalog, HEIGHTS, DATA, 0), refused(2, Image::Catalog, 0, 0));
    assert_eq!(block(&catalog, &catalog, HEIGHTS, DATA, 0), refused(2, Image::Extents, 0, 0));
}
