//! What is asked of an HFS image, in which nodes have 512 bytes and start blocks two.

use crate::hfs::{Hfs, NODE_SIZE};
use crate::lookup::Lookup;
use crate::salvage::Salvage;
use crate::verdict::Verdict;

/// Answers 0 at the start of the image if it is sound, else the first fault and its place.
///
/// It works in the first [`needed_work`](crate::needed_work) bytes of `work`, whatever they hold. In
/// a sound image it leaves one bit a node there, top bit first, set for the nodes in use; after a
/// fault in the nodes it leaves zeros. A wrong length or too few bytes leave `work` as it was.
pub fn check(image: &[u8], work: &mut [u8]) -> Verdict {
    crate::check::check::<Hfs, NODE_SIZE>(image, work)
}

/// Looks a key up, after checking the fork byte and the whole image.
///
/// It treats `work` as [`check`] does, and leaves it as it was where the fork byte is wrong.
pub fn lookup(image: &[u8], file: u32, fork: u8, start: u16, work: &mut [u8]) -> Lookup {
    crate::lookup::lookup::<Hfs, NODE_SIZE>(image, file, fork, start.into(), work)
}

/// Finds the first record with the key in any node from 1 up that looks like a leaf.
pub fn salvage(image: &[u8], file: u32, fork: u8, start: u16) -> Salvage {
    crate::salvage::salvage::<Hfs, NODE_SIZE>(image, file, fork, start.into())
}
