//! Blocks of the files of a small volume, with the answers that the request has for them.

use hfs_btree::block::{block, needed_work, Answer, Image, Mapping, Part, Place};
use images::bench;
use images::catalog::bench as catalogs;
use images::volume::bench::{cartridge_catalog, cartridge_extents};

const DATA: u8 = 0x00;
const RESOURCE: u8 = 0xFF;
const HEIGHTS: (u32, &[u8]) = (2, b"Heights");
const LEVELS: (u32, &[u8]) = (2, b"Levels");

/// With just the needed working bytes.
fn ask(catalog: &[u8], extents: &[u8], key: (u32, &[u8]), fork: u8, file_block: u16) -> Mapping {
    let mut catalog_work = vec![0xA5; needed_work(catalog.len())];
    let mut extents_work = vec![0x5A; needed_work(extents.len())];
    let work = (&mut catalog_work[..], &mut extents_work[..]);
    block(catalog, work.0, extents, work.1, key.0, key.1, fork, file_block)
}

fn cartridge(key: (u32, &[u8]), fork: u8, file_block: u16) -> Mapping {
    ask(&cartridge_catalog(), &cartridge_extents(), key, fork, file_block)
}

fn without_block(answer: Answer, image: Image, node: u32, offset: u32) -> Mapping {
    Mapping { answer, image, place: Place { node, offset }, volume_block: 0, part: Part::NONE }
}

fn refused(number: u32, image: Image, node: u32, offset: u32) -> Mapping {
    without_block(Answer::Refused { number }, image, node, offset)
}

fn covered(image: Image, place: (u32, u32), volume_block: u32, part: Part) -> Mapping {
    let place = Place { node: place.0, offset: place.1 };
    Mapping { answer: Answer::Covered, image, place, volume_block, part }
}

#[test]
fn blocks_of_the_file_record() {
    // The record starts at 154 of node 1, its data 14 bytes on.
    let start = 512 + 154 + 14 + 74;
    let part = Part { start, len: 12, bytes: [0, 20, 0, 2, 0, 30, 0, 2, 0, 40, 0, 1] };
    for (file_block, volume_block) in [(0, 20), (1, 21), (2, 30), (3, 31), (4, 40)] {
        let expected = covered(Image::Catalog, (1, 154), volume_block, part);
        assert_eq!(cartridge(HEIGHTS, DATA, file_block), expected);
    }
    let bytes = [0, 10, 0, 1, 0, 0, 0, 0, 0, 0, 0, 0];
    let part = Part { start: start + 12, len: 12, bytes };
    assert_eq!(cartridge(HEIGHTS, RESOURCE, 0), covered(Image::Catalog, (1, 154), 10, part));
}

#[test]
fn blocks_of_extents_records() {
    let bytes = [0, 50, 0, 3, 0, 60, 0, 1, 0, 70, 0, 2];
    let part = Part { start: 2 * 512 + 22, len: 12, bytes };
    for (file_block, volume_block) in [(5, 50), (7, 52), (8, 60), (9, 70), (10, 71)] {
        let expected = covered(Image::Extents, (2, 14), volume_block, part);
        assert_eq!(cartridge(HEIGHTS, DATA, file_block), expected);
    }
    let bytes = [0, 90, 0, 2, 0, 0, 0, 0, 0, 95, 0, 1];
    let part = Part { start: 3 * 512 + 22, len: 12, bytes };
    assert_eq!(cartridge(HEIGHTS, DATA, 17), covered(Image::Extents, (3, 14), 95, part));
    let bytes = [0, 11, 0, 1, 0, 12, 0, 2, 0, 0, 0, 0];
    let part = Part { start: 3 * 512 + 42, len: 12, bytes };
    assert_eq!(cartridge(HEIGHTS, RESOURCE, 3), covered(Image::Extents, (3, 34), 13, part));
}

#[test]
fn no_block() {
    let not_covered = without_block(Answer::NotCovered, Image::Extents, 0, 0);
    assert_eq!(cartridge(HEIGHTS, DATA, 18), not_covered);
    assert_eq!(cartridge(HEIGHTS, RESOURCE, 4), not_covered);
    assert_eq!(cartridge(LEVELS, RESOURCE, 0), not_covered);
    let above = without_block(Answer::AboveLastBlock, Image::Catalog, 0, 0);
    assert_eq!(
        (cartridge(LEVELS, DATA, 5).volume_block, cartridge(LEVELS, DATA, 6)),
        (65_535, above)
    );
    let not_a_file = without_block(Answer::NotAFile, Image::Catalog, 0, 0);
    assert_eq!(cartridge((1, b"Cartridge"), DATA, 0), not_a_file);
    assert_eq!(cartridge((2, b""), DATA, 0), not_a_file);
    let absent = without_block(Answer::Absent, Image::Catalog, 1, 0);
    assert_eq!(cartridge((2, b"Depths"), DATA, 0), absent);
}

#[test]
fn refusals() {
    assert_eq!(cartridge(HEIGHTS, 0x01, 0), refused(11, Image::Catalog, 0, 0));
    assert_eq!(cartridge((2, &[b'n'; 32]), DATA, 0), refused(11, Image::Catalog, 0, 0));
    let (catalog, extents) = (cartridge_catalog(), cartridge_extents());
    let faulty_catalog = catalogs::cartridge_with_back_link_1();
    let faulty_extents = bench::e1_with_map_byte(0xC0);
    let said = ask(&faulty_catalog, &faulty_extents, HEIGHTS, DATA, 0);
    assert_eq!(said, refused(7, Image::Catalog, 1, 4));
    let said = ask(&catalog, &faulty_extents, HEIGHTS, DATA, 0);
    assert_eq!(said, refused(9, Image::Extents, 0, 0xF8));
    assert_eq!(ask(&[], &extents, HEIGHTS, DATA, 0), refused(1, Image::Catalog, 0, 0));
    assert_eq!(ask(&catalog, &[], HEIGHTS, DATA, 0), refused(1, Image::Extents, 0, 0));
}

/// The number, the image, and the bytes left: a node a bit, of two and of four nodes.
fn leaves(catalog: &[u8], lent: (usize, usize), extents: &[u8]) -> (Answer, Image, [u8; 4]) {
    let mut work = [0x11, 0x12, 0x21, 0x22];
    let (catalog_work, extents_work) = work.split_at_mut(2);
    let (catalog_work, extents_work) = (&mut catalog_work[..lent.0], &mut extents_work[..lent.1]);
    let (parent, name) = HEIGHTS;
    let said = block(catalog, catalog_work, extents, extents_work, parent, name, DATA, 0);
    (said.answer, said.image, work)
}

#[test]
fn working_bytes() {
    let (catalog, extents) = (cartridge_catalog(), cartridge_extents());
    let (few, faulty) = (Answer::Refused { number: 16 }, Answer::Refused { number: 2 });
    let covered = (Answer::Covered, Image::Catalog, [0xC0, 0x12, 0xF0, 0x22]);
    assert_eq!(leaves(&catalog, (1, 1), &extents), covered);
    assert_eq!(leaves(&catalog, (2, 2), &extents), covered);
    let untouched = [0x11, 0x12, 0x21, 0x22];
    assert_eq!(leaves(&catalog, (0, 2), &extents), (few, Image::Catalog, untouched));
    assert_eq!(leaves(&catalog, (0, 0), &extents), (few, Image::Catalog, untouched));
    let catalog_only = [0xC0, 0x12, 0x21, 0x22];
    assert_eq!(leaves(&catalog, (2, 0), &extents), (few, Image::Extents, catalog_only));
    let zeros = [0x00, 0x12, 0x21, 0x22];
    assert_eq!(leaves(&[0; 512], (2, 2), &[0; 512]), (faulty, Image::Catalog, zeros));
    let zeros = [0xC0, 0x12, 0x00, 0x22];
    assert_eq!(leaves(&catalog, (2, 2), &[0; 512]), (faulty, Image::Extents, zeros));
}
