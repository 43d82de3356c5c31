//! Test 16: which of the lent working bytes a check needs.

use crate::hfs::NODE_SIZE;
use crate::place::Place;
use crate::verdict::{Verdict, WORKING_BYTES};

/// How many working bytes a check or a lookup in an image of this length needs: one bit a node.
pub const fn needed_work(image_len: usize) -> usize {
    bytes_for(image_len / NODE_SIZE)
}

/// How many bytes have a bit for each of so many nodes.
pub const fn bytes_for(node_count: usize) -> usize {
    node_count.div_ceil(8)
}

/// The needed bytes at the start of the lent ones, if enough are lent.
pub fn needed_part(work: &mut [u8], node_count: usize) -> Result<&mut [u8], Verdict> {
    work.get_mut(..bytes_for(node_count)).ok_or(Verdict::new(WORKING_BYTES, Place::START))
}
