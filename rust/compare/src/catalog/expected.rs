//! What the reference says of a catalog, in the words of the proved reader.

use crate::expected::{looked_up, salvaged, verdict};
use hfs_btree::catalog::{
    Data, Directory, Entry, Extent, File, Fork, Lookup, Salvage, Thread, Verdict,
};
use images::catalog::Key;
use std::ops::Range;

pub fn check(image: &[u8], work: &mut [u8]) -> Verdict {
    verdict(reference::catalog::check(image, work))
}

pub fn lookup(image: &[u8], key: &Key, work: &mut [u8]) -> Lookup {
    let said = reference::catalog::lookup(image, key.parent, &key.name, work);
    let data = data(image, said.data.clone());
    looked_up(said, data)
}

pub fn salvage(image: &[u8], key: &Key) -> Salvage {
    let said = reference::catalog::salvage(image, key.parent, &key.name);
    let data = data(image, said.data.clone());
    salvaged(said, data)
}

/// What the reference reads in the data of a record.
pub fn entry(data: &[u8]) -> Option<Entry> {
    use reference::catalog::Entry as Read;
    Some(match Read::read(data)? {
        Read::Directory(said) => Entry::Directory(directory(said)),
        Read::File(said) => Entry::File(file(said)),
        Read::DirectoryThread(said) => Entry::DirectoryThread(thread(said)),
        Read::FileThread(said) => Entry::FileThread(thread(said)),
    })
}

/// The proved reader copies the data where the reference says where they are.
fn data(image: &[u8], range: Option<Range<usize>>) -> Data {
    range.map_or(Data::NONE, |range| Data::from(&image[range]))
}

fn directory(said: reference::catalog::Directory) -> Directory {
    Directory {
        flags: said.flags,
        valence: said.valence,
        directory_id: said.directory_id,
        created: said.created,
        modified: said.modified,
        backed_up: said.backed_up,
        finder_info: said.finder_info,
        more_finder_info: said.more_finder_info,
    }
}

fn file(said: reference::catalog::File) -> File {
    File {
        flags: said.flags,
        file_type: said.file_type,
        finder_info: said.finder_info,
        file_id: said.file_id,
        data_fork: fork(said.data_fork),
        resource_fork: fork(said.resource_fork),
        created: said.created,
        modified: said.modified,
        backed_up: said.backed_up,
        more_finder_info: said.more_finder_info,
        clump_size: said.clump_size,
    }
}

fn fork(said: reference::catalog::Fork) -> Fork {
    let extent = |said: reference::catalog::Extent| Extent {
        first_block: said.first_block,
        block_count: said.block_count,
    };
    Fork {
        first_block: said.first_block,
        logical_length: said.logical_length,
        physical_length: said.physical_length,
        first_extents: said.first_extents.map(extent),
    }
}

fn thread(said: reference::catalog::Thread) -> Thread {
    Thread { parent_id: said.parent_id, name_length: said.name_length, name: said.name }
}
