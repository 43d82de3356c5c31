//! The calls for catalogs, proved and of the reference.

use crate::lent::work_for;
use crate::timing::report;
use images::catalog::{Built, Key, MOST_NAME};
use std::hint::black_box;

const REFERENCE: &str = "reference";

pub fn time_check(built: &Built) {
    report(
        "check",
        REFERENCE,
        work_for(&built.image),
        |work| hfs_btree::catalog::check(image(built), work),
        |work| reference::catalog::check(image(built), work),
    );
}

pub fn time_lookup_and_salvage(built: &Built) {
    let Key { parent, name } = &built.records[built.records.len() / 2].key;
    report(
        "lookup",
        REFERENCE,
        work_for(&built.image),
        |work| hfs_btree::catalog::lookup(image(built), *parent, name, work),
        |work| reference::catalog::lookup(image(built), *parent, name, work),
    );
    // No record has the highest key, so that salvage reads every node.
    let name = [0xFF; MOST_NAME];
    report(
        "salvage",
        REFERENCE,
        (),
        |()| hfs_btree::catalog::salvage(image(built), u32::MAX, &name),
        |()| reference::catalog::salvage(image(built), u32::MAX, &name),
    );
}

fn image(built: &Built) -> &[u8] {
    black_box(&built.image)
}
