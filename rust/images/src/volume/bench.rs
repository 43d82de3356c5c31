//! Small volumes with every byte that is not named zero.

use crate::catalog::entry::{directory, directory_thread, file_with_forks, pair_bytes, Pairs};
use crate::catalog::Key as CatalogKey;
use crate::format::Format;
use crate::key::Key;
use crate::node::Record;
use crate::trees::{empty, one_leaf, two_levels};

const ROOT_PARENT: u32 = 1;
const ROOT: u32 = 2;

const NONE: (u16, u16) = (0, 0);

/// A catalog of one leaf, node 1, with these files under parent 2, each with its data fork's and its
/// resource fork's first extents; ascending, of up to three.
pub fn catalog_of(files: &[(&[u8], u32, [Pairs; 2])]) -> Vec<u8> {
    let record = |&(name, id, [data_fork, resource_fork]): &(&[u8], u32, [Pairs; 2])| {
        catalog_record(ROOT, name, file_with_forks(id, data_fork, resource_fork))
    };
    let records: Vec<Record<CatalogKey>> = files.iter().map(record).collect();
    one_leaf(Format::CATALOG, &records)
}

/// An extents tree of one leaf, node 1, with these records; ascending, of up to 22.
pub fn extents_of(records: &[(Key, Pairs)]) -> Vec<u8> {
    if records.is_empty() {
        return empty(Format::HFS, 1);
    }
    one_leaf(Format::HFS, &extents_records(records))
}

/// The catalog of the cartridge: one leaf, node 1, with four records.
///
/// - At 14 under parent 1 the root directory `Cartridge`, number 2, with two entries.
/// - At 100 under parent 2 and no name its thread.
/// - At 154 under parent 2 the file `Heights`, number 16. First extents of its data fork are 2 blocks
///   from 20, 2 from 30 and 1 from 40; of its resource fork 1 block from 10.
/// - At 270 under parent 2 the file `Levels`, number 17. Its data fork has 4 blocks from 65,530 and 3
///   from 65,534, of which the last would be block 65,536.
pub fn cartridge_catalog() -> Vec<u8> {
    let heights = file_with_forks(16, [(20, 2), (30, 2), (40, 1)], [(10, 1), NONE, NONE]);
    let levels = file_with_forks(17, [(65_530, 4), (65_534, 3), NONE], [NONE; 3]);
    let records = [
        catalog_record(ROOT_PARENT, b"Cartridge", directory(ROOT, 2)),
        catalog_record(ROOT, b"", directory_thread(ROOT_PARENT, b"Cartridge")),
        catalog_record(ROOT, b"Heights", heights),
        catalog_record(ROOT, b"Levels", levels),
    ];
    one_leaf(Format::CATALOG, &records)
}

/// The extents tree of the cartridge: two levels, a root, node 1, over the leaves 2 and 3.
///
/// All records are of file 16, `Heights`:
///
/// - In leaf 2 at 14 the data fork from block 5: 3 blocks from 50, 1 from 60 and 2 from 70.
/// - In leaf 2 at 34 the data fork from block 11: 4 blocks from 80.
/// - In leaf 3 at 14 the data fork from block 15: 2 blocks from 90, none, and 1 from 95.
/// - In leaf 3 at 34 the resource fork from block 1: 1 block from 11 and 2 from 12.
pub fn cartridge_extents() -> Vec<u8> {
    let records = extents_records(&[
        (Key::new(16, 0x00, 5), [(50, 3), (60, 1), (70, 2)]),
        (Key::new(16, 0x00, 11), [(80, 4), NONE, NONE]),
        (Key::new(16, 0x00, 15), [(90, 2), NONE, (95, 1)]),
        (Key::new(16, 0xFF, 1), [(11, 1), (12, 2), NONE]),
    ]);
    two_levels(Format::HFS, &[&records[..2], &records[2..]])
}

fn catalog_record(parent: u32, name: &[u8], data: Vec<u8>) -> Record<CatalogKey> {
    Record { key: CatalogKey::new(parent, name), data }
}

fn extents_records(records: &[(Key, Pairs)]) -> Vec<Record> {
    let record = |&(key, pairs): &(Key, Pairs)| Record { key, data: pair_bytes(pairs).to_vec() };
    records.iter().map(record).collect()
}
