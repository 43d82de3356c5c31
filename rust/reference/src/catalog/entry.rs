//! The four kinds of leaf record, and where their fields stand.

use crate::node::{be16, be32};

const DIRECTORY: u8 = 1;
const FILE: u8 = 2;
const DIRECTORY_THREAD: u8 = 3;
const FILE_THREAD: u8 = 4;

/// What the data of a leaf record say; dates count seconds as the volume does.
#[derive(Clone, Copy, Debug, PartialEq, Eq)]
pub enum Entry {
    Directory(Directory),
    File(File),
    DirectoryThread(Thread),
    FileThread(Thread),
}

#[derive(Clone, Copy, Debug, PartialEq, Eq)]
pub struct Directory {
    pub flags: u16,
    pub valence: u16,
    pub directory_id: u32,
    pub created: u32,
    pub modified: u32,
    pub backed_up: u32,
    pub finder_info: [u8; 16],
    pub more_finder_info: [u8; 16],
}

#[derive(Clone, Copy, Debug, PartialEq, Eq)]
pub struct File {
    pub flags: u8,
    pub file_type: u8,
    pub finder_info: [u8; 16],
    pub file_id: u32,
    pub data_fork: Fork,
    pub resource_fork: Fork,
    pub created: u32,
    pub modified: u32,
    pub backed_up: u32,
    pub more_finder_info: [u8; 16],
    pub clump_size: u16,
}

/// What a file record says of one fork.
#[derive(Clone, Copy, Debug, PartialEq, Eq)]
pub struct Fork {
    pub first_block: u16,
    pub logical_length: u32,
    pub physical_length: u32,
    pub first_extents: [Extent; 3],
}

#[derive(Clone, Copy, Debug, PartialEq, Eq)]
pub struct Extent {
    pub first_block: u16,
    pub block_count: u16,
}

/// Where a directory or a file has its own record: under this parent and name.
#[derive(Clone, Copy, Debug, PartialEq, Eq)]
pub struct Thread {
    pub parent_id: u32,
    /// Nothing judges it, so that it may be more than the name has room for.
    pub name_length: u8,
    pub name: [u8; 31],
}

/// How many bytes the data of a type have; none if there is no such type.
pub fn data_size(data_type: u8) -> Option<usize> {
    match data_type {
        DIRECTORY => Some(70),
        FILE => Some(102),
        DIRECTORY_THREAD | FILE_THREAD => Some(46),
        _ => None,
    }
}

impl Entry {
    /// Reads the whole data of a record; none if they are not as long as their type has them.
    pub fn read(data: &[u8]) -> Option<Entry> {
        let &data_type = data.first()?;
        if data_size(data_type) != Some(data.len()) {
            return None;
        }
        Some(match data_type {
            DIRECTORY => Entry::Directory(read_directory(data)),
            FILE => Entry::File(read_file(data)),
            DIRECTORY_THREAD => Entry::DirectoryThread(read_thread(data)),
            _ => Entry::FileThread(read_thread(data)),
        })
    }
}

fn read_directory(data: &[u8]) -> Directory {
    Directory {
        flags: be16(data, 2),
        valence: be16(data, 4),
        directory_id: be32(data, 6),
        created: be32(data, 10),
        modified: be32(data, 14),
        backed_up: be32(data, 18),
        finder_info: bytes(data, 22),
        more_finder_info: bytes(data, 38),
    }
}

fn read_file(data: &[u8]) -> File {
    File {
        flags: data[2],
        file_type: data[3],
        finder_info: bytes(data, 4),
        file_id: be32(data, 20),
        data_fork: read_fork(data, 24, 74),
        resource_fork: read_fork(data, 34, 86),
        created: be32(data, 44),
        modified: be32(data, 48),
        backed_up: be32(data, 52),
        more_finder_info: bytes(data, 56),
        clump_size: be16(data, 72),
    }
}

fn read_fork(data: &[u8], at: usize, extents_at: usize) -> Fork {
    let extent = |index: usize| Extent {
        first_block: be16(data, extents_at + 4 * index),
        block_count: be16(data, extents_at + 4 * index + 2),
    };
    Fork {
        first_block: be16(data, at),
        logical_length: be32(data, at + 2),
        physical_length: be32(data, at + 6),
        first_extents: [0, 1, 2].map(extent),
    }
}

fn read_thread(data: &[u8]) -> Thread {
    Thread { parent_id: be32(data, 10), name_length: data[14], name: bytes(data, 15) }
}

fn bytes<const SIZE: usize>(data: &[u8], at: usize) -> [u8; SIZE] {
    let mut copied = [0; SIZE];
    copied.copy_from_slice(&data[at..at + SIZE]);
    copied
}
