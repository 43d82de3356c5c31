//! Blocks of a file: one that its own record covers, and one of the last extents record of a fork.

use crate::lent::work_for;
use crate::timing::report;
use images::volume::{FileFork, Volume};
use std::hint::black_box;

pub fn time(volume: &Volume) {
    let FileFork { key, fork_byte, fork, .. } = &volume.forks[volume.forks.len() / 2];
    let last_block = fork.later.last().map_or(0, |piece| piece.start);
    let (parent, name, fork) = (key.parent, &key.name, *fork_byte);
    let catalog = || black_box(volume.catalog.image.as_slice());
    let extents = || black_box(volume.extents.image.as_slice());
    for (what, block) in [("first", 0), ("block", last_block)] {
        let lent = (work_for(&volume.catalog.image), work_for(&volume.extents.image));
        report(
            what,
            "reference",
            lent,
            |(work, later)| {
                hfs_btree::block(catalog(), work, extents(), later, parent, name, fork, block)
            },
            |(work, later)| {
                reference::block(catalog(), work, extents(), later, parent, name, fork, block)
            },
        );
    }
}
