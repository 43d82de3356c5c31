//! The data of the four kinds of catalog record.

use crate::node::{put16, put32};
use crate::rng::Rng;

pub const DIRECTORY: u8 = 1;
pub const FILE: u8 = 2;
pub const DIRECTORY_THREAD: u8 = 3;
pub const FILE_THREAD: u8 = 4;

/// Three pairs of first block and block count.
pub type Pairs = [(u16, u16); 3];

/// The types there are.
pub const TYPES: [u8; 4] = [DIRECTORY, FILE, DIRECTORY_THREAD, FILE_THREAD];

/// The bytes of the data of a type that there is.
pub fn data_size(data_type: u8) -> usize {
    match data_type {
        DIRECTORY => 70,
        FILE => 102,
        _ => 46,
    }
}

/// Data of a type with any bytes in all fields.
pub fn random_data(rng: &mut Rng, data_type: u8) -> Vec<u8> {
    let mut data = vec![0; data_size(data_type)];
    rng.fill(&mut data);
    data[0] = data_type;
    data
}

/// A directory with so many entries; every field that is not named is zero.
pub fn directory(id: u32, valence: u16) -> Vec<u8> {
    let mut data = empty(DIRECTORY);
    put16(&mut data, 4, valence);
    put32(&mut data, 6, id);
    data
}

/// A file whose data fork has these first extents and lengths; it has no resource fork, and every field
/// that is not named is zero.
pub fn file(id: u32, extents: Pairs, logical: u32, physical: u32) -> Vec<u8> {
    let mut data = file_with_forks(id, extents, [(0, 0); 3]);
    put16(&mut data, 24, extents[0].0);
    put32(&mut data, 26, logical);
    put32(&mut data, 30, physical);
    data
}

/// A file with the first extents of its data fork and of its resource fork; all else is zero.
pub fn file_with_forks(id: u32, data_fork: Pairs, resource_fork: Pairs) -> Vec<u8> {
    let mut data = empty(FILE);
    put_file(&mut data, id, [data_fork, resource_fork]);
    data
}

/// Writes the number of a file and the first extents of its data fork and of its resource fork.
pub fn put_file(data: &mut [u8], id: u32, forks: [Pairs; 2]) {
    put32(data, 20, id);
    data[74..86].copy_from_slice(&pair_bytes(forks[0]));
    data[86..98].copy_from_slice(&pair_bytes(forks[1]));
}

/// The bytes of three pairs, as a file record and an extents record have them.
pub fn pair_bytes(pairs: Pairs) -> [u8; 12] {
    let mut bytes = [0; 12];
    for (index, (first_block, block_count)) in pairs.into_iter().enumerate() {
        put16(&mut bytes, 4 * index, first_block);
        put16(&mut bytes, 4 * index + 2, block_count);
    }
    bytes
}

/// A thread to a directory.
pub fn directory_thread(parent: u32, name: &[u8]) -> Vec<u8> {
    thread(DIRECTORY_THREAD, parent, name)
}

/// A thread to a file.
pub fn file_thread(parent: u32, name: &[u8]) -> Vec<u8> {
    thread(FILE_THREAD, parent, name)
}

fn thread(data_type: u8, parent: u32, name: &[u8]) -> Vec<u8> {
    let mut data = empty(data_type);
    put32(&mut data, 10, parent);
    data[14] = name.len() as u8;
    data[15..15 + name.len()].copy_from_slice(name);
    data
}

fn empty(data_type: u8) -> Vec<u8> {
    let mut data = vec![0; data_size(data_type)];
    data[0] = data_type;
    data
}
