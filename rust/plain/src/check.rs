//! Is the image sound: all tests, in their order.

use crate::header::Header;
use crate::map::{compare_bits, follow_chain};
use crate::node::{whole_nodes, Node, MOST_NODES};
use crate::node_set::{needed_work, NodeSet};
use crate::verdict::{require, Verdict};
use crate::walk::walk;

/// An image that has passed every test.
pub struct SoundImage<'a> {
    pub nodes: &'a [Node],
    pub header: Header,
}

/// Answers 0 if the image is sound, else the first fault and its place.
///
/// It works in the first [`needed_work`] bytes of `work`, whatever they hold. In a sound image it
/// leaves one bit a node there, top bit first, set for the nodes in use; after a fault in the nodes
/// it leaves zeros. A wrong length or too few bytes leave `work` as it was.
pub fn check(image: &[u8], work: &mut [u8]) -> Verdict {
    open(image, work).map_or_else(|fault| fault, |_| Verdict::SOUND)
}

/// Runs the whole check, and hands the image out for reading only if it is sound.
pub fn open<'a>(image: &'a [u8], work: &mut [u8]) -> Result<SoundImage<'a>, Verdict> {
    let (nodes, broken) = whole_nodes(image);
    let right_length = broken.is_empty() && (1..=MOST_NODES).contains(&nodes.len());
    require(right_length, Verdict::LENGTH)?;
    let work = work.get_mut(..needed_work(image.len())).ok_or(Verdict::WORKING_BYTES)?;
    // The nodes met before a fault are no answer.
    test_nodes(nodes, work).inspect_err(|_| work.fill(0))
}

/// Tests 2 to 10.
fn test_nodes<'a>(nodes: &'a [Node], work: &mut [u8]) -> Result<SoundImage<'a>, Verdict> {
    let header = Header::read(&nodes[0], nodes.len()).ok_or(Verdict::HEADER)?;
    let mut met = NodeSet::empty_in(work);
    follow_chain(nodes, &mut met)?;
    let leaves = walk(nodes, &header, &mut met)?;
    let right_totals = header.leaf_records == leaves.records
        && header.first_leaf == leaves.first
        && header.last_leaf == leaves.last;
    require(right_totals, Verdict::LEAF_TOTALS)?;
    compare_bits(nodes, met.bytes())?;
    require(header.free_nodes as usize == nodes.len() - met.len(), Verdict::FREE_COUNT)?;
    Ok(SoundImage { nodes, header })
}
