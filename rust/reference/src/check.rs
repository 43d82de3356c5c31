//! Is the image sound: all tests, in their order.

use crate::header::{is_header_node, Header};
use crate::layout::Layout;
use crate::map::{compare_bits, follow_chain};
use crate::node::{whole_nodes, Node, MOST_NODES};
use crate::node_set::NodeSet;
use crate::place::Place;
use crate::tree::walk;
use crate::verdict::{require, Verdict, FREE_COUNT, HEADER, LEAF_TOTALS, LENGTH};
use crate::work::needed_part;

/// An image that has passed every test.
pub struct SoundImage<'a, const N: usize> {
    pub nodes: &'a [Node<N>],
    pub header: Header,
}

/// Answers 0 at the start of the image if it is sound, else the first fault and its place.
pub fn check<L: Layout, const N: usize>(image: &[u8], work: &mut [u8]) -> Verdict {
    match open::<L, N>(image, work) {
        Ok(_) => Verdict::SOUND,
        Err(fault) => fault,
    }
}

/// Runs the whole check and hands out the image for reading only if it is sound.
pub fn open<'a, L: Layout, const N: usize>(
    image: &'a [u8],
    work: &mut [u8],
) -> Result<SoundImage<'a, N>, Verdict> {
    let nodes = whole_nodes(image);
    let right_length = image.len().is_multiple_of(N) && (1..=MOST_NODES).contains(&nodes.len());
    require(right_length, LENGTH, Place::START)?;

    let work = needed_part(work, nodes.len())?;
    // The nodes met before a fault are no answer, so they are not left to the caller.
    test_nodes::<L, N>(nodes, NodeSet::new(work)).inspect_err(|_| work.fill(0))
}

/// Tests 2 to 10, which start with no node met.
fn test_nodes<'a, L: Layout, const N: usize>(
    nodes: &'a [Node<N>],
    mut met: NodeSet,
) -> Result<SoundImage<'a, N>, Verdict> {
    let header = Header::read(&nodes[0]);
    let right_header = is_header_node(&nodes[0]) && header.is_possible::<L, N>(nodes.len());
    require(right_header, HEADER, Place::START)?;

    follow_chain::<L, N>(nodes, &mut met)?;
    let leaves = walk::<L, N>(nodes, &header, &mut met)?;

    let right_totals = header.leaf_records == leaves.records
        && header.first_leaf == leaves.first
        && header.last_leaf == leaves.last;
    require(right_totals, LEAF_TOTALS, Place::START)?;
    compare_bits::<L, N>(nodes, &met)?;
    let free = nodes.len() - met.len();
    require(header.free_nodes as usize == free, FREE_COUNT, Place::START)?;
    Ok(SoundImage { nodes, header })
}
