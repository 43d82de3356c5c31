//! The other calls on the written image, and images of other layouts, formats and sizes.

use crate::extents::Extents;
use crate::timing::{timed, RUNS};
use crate::written::Written;
use crate::{block, catalog, growth, one_by_one, one_leaf, plus, writer};
use images::{samples, volume, Built};
use std::hint::black_box;

/// As many nodes of 4,096 bytes as make an image as long as the largest of HFS.
const PLUS_NODES: usize = 8_192;

/// The catalog over the largest extents tree.
const CATALOG_NODES: usize = 4_000;

const MOST_KEYS: usize = 100_000;

pub fn print(written: &Written) {
    println!("\nother calls on the same image, and the writer that made it, median of {RUNS}");
    let extents = Extents { image: &written.image, records: &written.row.records };
    extents.time_lookup();
    extents.time_many(MOST_KEYS);
    extents.time_salvage();
    print_sum(&written.image);
    writer::time(written);
    println!();
    growth::print();
    print_formats();
    print_layouts();
    println!();
    one_leaf::print();
}

/// What it takes to read every byte once: no check can be faster.
fn print_sum(image: &[u8]) {
    let sum = || {
        let (words, _) = black_box(image).as_chunks();
        words.iter().fold(0, |sum: u64, word| sum.wrapping_add(u64::from_ne_bytes(*word)))
    };
    let times = timed(sum);
    let (median, fastest) = (times.median(), times.fastest());
    println!(
        "{:12} {median:15.3} ms, fastest {fastest:.3} ms: the sum of the image's words",
        "sum"
    );
}

fn print_formats() {
    let built = images::catalog::samples::largest();
    title("catalog of threads, eight in a leaf", built.total());
    catalog::time_check(&built);
    catalog::time_lookup_and_salvage(&built);
    let built = images::catalog::samples::largest_mixed();
    title("catalog of all types", built.total());
    catalog::time_check(&built);
    let built = samples::largest_plus(PLUS_NODES);
    title("HFS Plus, nodes of 4,096 bytes", built.total());
    plus::time_check(&built);
    plus::time_lookup_and_salvage(&built);
    let volume = volume::samples::largest_under(CATALOG_NODES);
    title("volume, a catalog and its extents", volume.extents.total());
    block::time(&volume);
}

fn print_layouts() {
    let built = samples::largest_in_order();
    title("extents, nodes in the order of their levels, root first", built.total());
    all_calls(&built).time_check();
    let built = samples::largest();
    title("extents, nodes in a random order", built.total());
    let extents = all_calls(&built);
    extents.time_check();
    extents.time_lookup();
    for count in [1, 1_000, MOST_KEYS] {
        extents.time_many(count);
    }
    extents.time_salvage();
    one_by_one::print(extents);
}

fn all_calls(built: &Built) -> Extents<'_> {
    Extents { image: &built.image, records: &built.records }
}

fn title(what: &str, nodes: u32) {
    println!("\n{what}, {nodes} nodes, median of {RUNS}");
}
