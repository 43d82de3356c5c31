//! Catalogs on the bench, with every byte that is not named zero.

use super::entry::{directory, directory_thread, file, file_thread};
use super::key::Key;
use crate::format::Format;
use crate::node::{put32, Record};
use crate::trees::{self, one_leaf, one_record_leaves, two_levels};

const FORMAT: Format = Format::CATALOG;

/// The directory that every root directory stands in.
const ROOT_PARENT: u32 = 1;
const ROOT: u32 = 2;

/// An image of an empty tree: only a header, the map bit of node 0 and zeros.
pub fn empty_tree(total: u32) -> Vec<u8> {
    trees::empty(FORMAT, total)
}

/// A header and one leaf with three records.
///
/// - Under parent 1 the root directory `Cartridge`, number 2, with one entry.
/// - Under parent 2 and no name its thread, back to parent 1 and `Cartridge`.
/// - Under parent 2 the file `Heights`, number 16. Its data fork has 4,000 bytes in eight blocks of
///   512, five of them in its first extents: 2 from block 20, 2 from 30 and 1 from 40.
///
/// The records start at 14, 100 and 154, and the free space at 270.
pub fn cartridge() -> Vec<u8> {
    let heights = file(16, [(20, 2), (30, 2), (40, 1)], 4_000, 4_096);
    one_leaf(
        FORMAT,
        &[
            record(ROOT_PARENT, b"Cartridge", directory(ROOT, 1)),
            record(ROOT, b"", directory_thread(ROOT_PARENT, b"Cartridge")),
            record(ROOT, b"Heights", heights),
        ],
    )
}

/// The same whose leaf is linked back to itself.
pub fn cartridge_with_back_link_1() -> Vec<u8> {
    let mut image = cartridge();
    put32(&mut image, 512 + 4, 1);
    image
}

/// A header and one leaf with so many records of 54 bytes, threads of the files from 16 on; sound up
/// to 8.
pub fn leaf_with(count: usize) -> Vec<u8> {
    one_leaf(FORMAT, &threads(count))
}

/// A root over leaves of one such record each; sound up to 11.
pub fn index_with(count: usize) -> Vec<u8> {
    one_record_leaves(FORMAT, &threads(count))
}

/// A header and one leaf of eight records whose last has a name of so many bytes, the others of 7;
/// up to 7 it ends before the offset words.
///
/// With 7 the free space starts at 494, which is where the nine offset words do.
pub fn full_leaf(last_name: usize) -> Vec<u8> {
    let named =
        |file: u32, length: usize| record(file, &vec![b'n'; length], file_thread(ROOT, b""));
    let mut records: Vec<Record<Key>> = (16..23).map(|file| named(file, 7)).collect();
    records.push(named(23, last_name));
    one_leaf(FORMAT, &records)
}

/// Two levels in four nodes: a root, node 1, over the leaves 2 and 3 with two directories each.
///
/// Of two names that differ in their first letters only, that in capitals comes before by its bytes
/// and after by its weight.
pub fn two_leaves() -> Vec<u8> {
    let records = [
        record(ROOT, b"apples", directory(16, 0)),
        record(ROOT, b"Bees", directory(17, 0)),
        record(ROOT, b"cows", directory(18, 0)),
        record(ROOT, b"Dogs", directory(19, 0)),
    ];
    two_levels(FORMAT, &[&records[..2], &records[2..]])
}

/// The same tree with another key in the root's second record, which points to leaf 3.
pub fn two_leaves_with_pointer(key: &Key) -> Vec<u8> {
    let mut image = two_leaves();
    let at = 512 + 14 + 42 + 2;
    let bytes = key.after_reserved();
    image[at..at + bytes.len()].copy_from_slice(&bytes);
    image
}

/// One leaf with a name and the same in the other case, under these two parents; under one and the
/// same they are the same key twice.
pub fn case_twins(parents: [u32; 2]) -> Vec<u8> {
    let twins = [
        record(parents[0], b"Heights", directory(16, 0)),
        record(parents[1], b"hEIGHTS", directory(17, 0)),
    ];
    one_leaf(FORMAT, &twins)
}

/// One leaf with two directories of these names, in this order, under one parent.
pub fn two_names(names: [&[u8]; 2]) -> Vec<u8> {
    one_leaf(FORMAT, &names.map(|name| record(ROOT, name, directory(16, 0))))
}

fn threads(count: usize) -> Vec<Record<Key>> {
    (16..).take(count).map(|file| record(file, b"", file_thread(ROOT, b"Heights"))).collect()
}

fn record(parent: u32, name: &[u8], data: Vec<u8>) -> Record<Key> {
    Record { key: Key::new(parent, name), data }
}
