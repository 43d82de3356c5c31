//! The calls for HFS Plus, proved and of the reference.

use crate::timing::report;
use hfs_btree::editions as proved;
use images::{Built, Key};
use reference::editions as other;
use std::hint::black_box;

const REFERENCE: &str = "reference";

pub fn time_check(built: &Built) {
    let (edition, size) = form(built);
    report(
        "check",
        REFERENCE,
        work_for(built),
        |work| proved::check(edition, size, image(built), work),
        |work| other::check(edition, size, image(built), work),
    );
}

pub fn time_lookup_and_salvage(built: &Built) {
    let (edition, size) = form(built);
    let records = &built.records;
    let Key { file, fork, start } = records[records.len() / 2].key;
    report(
        "lookup",
        REFERENCE,
        work_for(built),
        |work| proved::lookup(edition, size, image(built), file, fork, start, work),
        |work| other::lookup(edition, size, image(built), file, fork, start, work),
    );
    // No record has a key above the last, so that salvage looks at every node.
    let last = built.format.rank_of(records[records.len() - 1].key);
    let Key { file, fork, start } = built.format.key_of_rank(last + 1);
    report(
        "salvage",
        REFERENCE,
        (),
        |()| proved::salvage(edition, size, image(built), file, fork, start),
        |()| other::salvage(edition, size, image(built), file, fork, start),
    );
}

fn form(built: &Built) -> (u32, u32) {
    (built.format.edition_number(), built.format.node_size as u32)
}

fn work_for(built: &Built) -> Vec<u8> {
    vec![0; other::needed_work(built.format.node_size as u32, built.image.len())]
}

fn image(built: &Built) -> &[u8] {
    black_box(&built.image)
}
