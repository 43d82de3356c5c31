//! What a row of keys saves: the same keys one by one, with a check for each, all proved.

use crate::extents::Extents;
use crate::lent::work_for;
use crate::timing::Pair;
use std::hint::black_box;

const COUNTS: [usize; 2] = [1, 100];

/// Fewer than elsewhere, as a run may take a second.
const RUNS: usize = 5;

pub fn print(extents: Extents) {
    println!("keys at once and one by one, median of {RUNS}");
    for count in COUNTS {
        let keys = extents.any_keys(count);
        let pair = Pair::timed(
            RUNS,
            (vec![0; count], work_for(extents.image)),
            |(results, work)| hfs_btree::lookup_many(extents.unknown(), &keys, results, work),
            |(_, work)| keys.iter().for_each(|&key| look_up(extents.unknown(), key, work)),
        );
        let (row, single, ratio) = (pair.proved.median(), pair.other.median(), pair.ratio());
        println!("{count:6} at once {row:8.3} ms, one by one {single:9.3} ms, ratio {ratio:.3}");
    }
}

fn look_up(image: &[u8], key: u64, work: &mut [u8]) {
    let (file, fork, start) = ((key >> 24) as u32, (key >> 16) as u8, key as u16);
    black_box(hfs_btree::lookup(image, file, fork, start, work));
}
