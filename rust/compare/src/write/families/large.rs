//! The longest row that any target has room for, and rows right beside it.

use crate::write::comparison::{WriteComparison, TOO_FEW_NODES, WRITTEN, WRONG_LENGTH};
use images::node::MOST_NODES;
use images::rows::{most_records, Row, RowSpoiling, Spread, RECORD_SIZE};
use images::Rng;

/// 63,644 full leaves.
const MOST_RECORDS: usize = 1_400_168;

pub fn largest(comparison: &mut WriteComparison, seed: u64) {
    let mut rng = Rng::new(seed);
    assert_eq!(most_records(MOST_NODES), MOST_RECORDS, "the longest row");
    let row = Row::random(&mut rng, MOST_RECORDS + 1, Spread::Random).bytes;
    let longest = &row[..MOST_RECORDS * RECORD_SIZE];
    let target_len = MOST_NODES * 512;
    comparison.write_for(WRITTEN, longest, target_len);
    comparison.write_for(TOO_FEW_NODES, &row, target_len);
    comparison.write_for(TOO_FEW_NODES, longest, target_len - 512);
    comparison.write_for(WRONG_LENGTH, longest, target_len + 512);
    comparison.write_for(RowSpoiling::NUMBER, &longest[..longest.len() - 1], target_len);
    // A wrong fork byte in the last record.
    let mut spoiled = longest.to_vec();
    spoiled[longest.len() - RECORD_SIZE + 1] = 0x01;
    comparison.write_for(RowSpoiling::NUMBER, &spoiled, target_len);
    // Consecutive keys, with one record in the last leaf.
    let dense = Row::random(&mut rng, MOST_RECORDS - 21, Spread::AcrossForks);
    comparison.write_in(MOST_NODES, &dense);
}
