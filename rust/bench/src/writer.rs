//! How long both writers take to lay the longest row down.

use crate::timing::report;
use crate::written::Written;
use std::hint::black_box;

pub fn time(written: &Written) {
    let row = || black_box(written.row.bytes.as_slice());
    report(
        "write",
        "reference",
        vec![0; written.image.len()],
        |target| hfs_btree::write_tree(row(), target),
        |target| reference::write_tree(row(), target),
    );
}
