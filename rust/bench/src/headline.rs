//! The ratio that W-212 names, in its words.

use crate::agreement::{test, Tally};
use crate::lent::work_for;
use crate::timing::{Pair, RUNS};
use crate::written::Written;
use std::hint::black_box;

/// What the request allows.
const MOST_RATIO: f64 = 2.0;

/// Tests the plain check against the proved one, and times both only if they agree.
pub fn print(written: &Written) -> Result<(), String> {
    let (nodes, records) = (written.nodes, written.row.records.len());
    println!(
        "Checking the {nodes}-node image that the proved writer lays down from as long a row as"
    );
    println!("fits, {records} records.");
    print_tally(&test(written)?);

    let image = || black_box(written.image.as_slice());
    let pair = Pair::timed(
        RUNS,
        work_for(&written.image),
        |work| hfs_btree::check(image(), work),
        |work| plain::check(image(), work),
    );
    println!("Median of {RUNS} runs in turns, working bytes cleared before the time is taken:");
    pair.print("check", "plain");
    let word = if pair.ratio() <= MOST_RATIO { "at most" } else { "above" };
    println!("The ratio is {word} {MOST_RATIO}.");
    Ok(())
}

fn print_tally(tally: &Tally) {
    let images: usize = tally.values().sum();
    println!(
        "Tested first: the image and {} copies with a field changed. Both checks gave the",
        images - 1
    );
    println!("same number, place and working bytes of each. Answered were");
    for (number, count) in tally {
        println!("  {number:2}: {count:4} times");
    }
}
