//! What a check costs a node in images of several sizes.

use crate::lent::work_for;
use crate::timing::{Pair, RUNS};
use crate::written::{Written, MOST_NODES};
use std::hint::black_box;

const SIZES: [usize; 4] = [1, 100, 6_000, MOST_NODES];

/// Small images are checked again until as many nodes have been read as the largest has.
pub fn print() {
    println!("nanoseconds a node in a check of written images, median of {RUNS}");
    for nodes in SIZES {
        let Written { image, .. } = Written::of(nodes);
        let calls = MOST_NODES / nodes;
        let needed = work_for(&image).len();
        let image = || black_box(image.as_slice());
        // Each call has working bytes of its own, so that all are cleared before.
        let pair = Pair::timed(
            RUNS,
            vec![0; calls * needed],
            |lent| each(lent, needed, |work| hfs_btree::check(image(), work)),
            |lent| each(lent, needed, |work| plain::check(image(), work)),
        );
        let a_node = |milliseconds: f64| milliseconds * 1e6 / (calls * nodes) as f64;
        let (ours, theirs) = (a_node(pair.proved.median()), a_node(pair.other.median()));
        let ratio = pair.ratio();
        println!("{nodes:6} nodes proved {ours:7.1}, plain {theirs:7.1}, ratio {ratio:.2}");
    }
}

/// A call for each part of the lent bytes.
pub fn each<T>(lent: &mut [u8], needed: usize, mut call: impl FnMut(&mut [u8]) -> T) {
    for work in lent.chunks_exact_mut(needed) {
        black_box(call(work));
    }
}
