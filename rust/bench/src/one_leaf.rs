//! A lookup where the check before it takes least, so that the search shows most.

use crate::growth::each;
use crate::lent::work_for;
use crate::timing::{report, RUNS};
use images::bench;
use std::hint::black_box;

const CALLS: usize = 10_000;
const RECORDS: usize = 22;

pub fn print() {
    println!("one leaf of {RECORDS} records, {CALLS} calls, median of {RUNS}");
    let leaf = bench::leaf_with(RECORDS);
    let needed = work_for(&leaf).len();
    let lent = vec![0; CALLS * needed];
    let image = || black_box(leaf.as_slice());
    report(
        "check",
        "plain",
        lent.clone(),
        |lent| each(lent, needed, |work| hfs_btree::check(image(), work)),
        |lent| each(lent, needed, |work| plain::check(image(), work)),
    );
    // The files of the leaf and one on either side of them, in turn.
    let files = || (0..RECORDS as u32 + 2).cycle();
    let (mut ours, mut theirs) = (files(), files());
    let mut next = move || black_box(ours.next().unwrap_or(0));
    let mut their_next = move || black_box(theirs.next().unwrap_or(0));
    report(
        "lookup",
        "plain",
        lent,
        |lent| each(lent, needed, |work| hfs_btree::lookup(image(), next(), 0x00, 0, work).answer),
        |lent| {
            each(lent, needed, |work| plain::lookup(image(), their_next(), 0x00, 0, work).verdict)
        },
    );
}
