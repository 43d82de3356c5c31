//! The fields of the four kinds of catalog record, at the offsets that the request's table has.

use reference::catalog::{Directory, Entry, Extent, File, Fork, Thread};

/// Data of which every byte but the type is its own offset.
fn data(data_type: u8, size: u8) -> Vec<u8> {
    [data_type].into_iter().chain(1..size).collect()
}

/// As many offsets as there are bytes, from the first on.
fn bytes_from<const SIZE: usize>(first: u8) -> [u8; SIZE] {
    std::array::from_fn(|index| first + index as u8)
}

#[test]
fn directory() {
    let directory = Directory {
        flags: 0x0203,
        valence: 0x0405,
        directory_id: 0x0607_0809,
        created: 0x0A0B_0C0D,
        modified: 0x0E0F_1011,
        backed_up: 0x1213_1415,
        finder_info: bytes_from(22),
        more_finder_info: bytes_from(38),
    };
    assert_eq!(Entry::read(&data(1, 70)), Some(Entry::Directory(directory)));
}

#[test]
fn file() {
    let extent = |first_block, block_count| Extent { first_block, block_count };
    let data_fork = Fork {
        first_block: 0x1819,
        logical_length: 0x1A1B_1C1D,
        physical_length: 0x1E1F_2021,
        first_extents: [extent(0x4A4B, 0x4C4D), extent(0x4E4F, 0x5051), extent(0x5253, 0x5455)],
    };
    let resource_fork = Fork {
        first_block: 0x2223,
        logical_length: 0x2425_2627,
        physical_length: 0x2829_2A2B,
        first_extents: [extent(0x5657, 0x5859), extent(0x5A5B, 0x5C5D), extent(0x5E5F, 0x6061)],
    };
    let file = File {
        flags: 2,
        file_type: 3,
        finder_info: bytes_from(4),
        file_id: 0x1415_1617,
        data_fork,
        resource_fork,
        created: 0x2C2D_2E2F,
        modified: 0x3031_3233,
        backed_up: 0x3435_3637,
        more_finder_info: bytes_from(56),
        clump_size: 0x4849,
    };
    assert_eq!(Entry::read(&data(2, 102)), Some(Entry::File(file)));
}

#[test]
fn threads() {
    let thread = Thread { parent_id: 0x0A0B_0C0D, name_length: 14, name: bytes_from(15) };
    assert_eq!(Entry::read(&data(3, 46)), Some(Entry::DirectoryThread(thread)));
    assert_eq!(Entry::read(&data(4, 46)), Some(Entry::FileThread(thread)));
}

#[test]
fn data_that_are_no_record() {
    for (data_type, size) in
        [(0, 46), (1, 46), (1, 69), (1, 102), (2, 70), (3, 47), (4, 70), (5, 46)]
    {
        assert_eq!(Entry::read(&data(data_type, size)), None, "type {data_type}, {size} bytes");
    }
    assert_eq!((Entry::read(&[]), Entry::read(&[1])), (None, None));
}
