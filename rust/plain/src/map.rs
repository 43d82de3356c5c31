//! Tests 3 and 9: the chain of map nodes, and the bits in it.

use crate::node::{back_link, forward_link, is_of, record_count, Node, MAP_KIND, NODE_SIZE};
use crate::node_set::NodeSet;
use crate::verdict::{require, Verdict};
use std::iter;
use std::ops::Range;

const HEADER_MAP: Range<usize> = 0xF8..0x1F8;
const NODE_MAP: Range<usize> = 0x0E..0x1FC;
const ZEROS: [u8; NODE_SIZE] = [0; NODE_SIZE];
const OFFSET_WORDS: [u8; 4] = [0x01, 0xFC, 0x00, 0x0E];

/// Test 3: follows the chain from the header, and adds its nodes to those met.
pub fn follow_chain(nodes: &[Node], met: &mut NodeSet) -> Result<(), Verdict> {
    let mut bits = 8 * HEADER_MAP.len();
    let mut last = 0;
    met.insert(0);
    while let Some(next) = next_in_chain(nodes, last) {
        let node = nodes.get(next as usize).filter(|_| met.insert(next));
        let node = node.ok_or(Verdict::map_chain(last))?;
        require(is_map_node(node), Verdict::map_chain(next))?;
        bits += 8 * NODE_MAP.len();
        last = next;
    }
    require(bits >= nodes.len(), Verdict::map_chain(last))
}

/// Test 9: of a chain that has passed, a bit is set exactly where its node has been met.
pub fn compare_bits(nodes: &[Node], met: &[u8]) -> Result<(), Verdict> {
    let map_nodes =
        iter::successors(next_in_chain(nodes, 0), |&number| next_in_chain(nodes, number));
    let records = iter::once((0, HEADER_MAP)).chain(map_nodes.map(|number| (number, NODE_MAP)));
    let mut met = met;
    for (number, range) in records {
        let record = &nodes[number as usize][range.clone()];
        let (expected, later) = met.split_at(met.len().min(record.len()));
        let (of_nodes, beyond) = record.split_at(expected.len());
        if of_nodes != expected || *beyond != ZEROS[..beyond.len()] {
            return Err(Verdict::map_bits(number, range.start + first_wrong(record, expected)));
        }
        met = later;
    }
    Ok(())
}

/// The first byte that is not as expected, or not zero beyond that.
#[cold]
fn first_wrong(record: &[u8], expected: &[u8]) -> usize {
    let expected = expected.iter().chain(iter::repeat(&0));
    record.iter().zip(expected).take_while(|(byte, expected)| byte == expected).count()
}

/// None at the end of the chain.
fn next_in_chain(nodes: &[Node], number: u32) -> Option<u32> {
    Some(forward_link(&nodes[number as usize])).filter(|&next| next != 0)
}

fn is_map_node(node: &Node) -> bool {
    is_of(node, MAP_KIND, 0)
        && back_link(node) == 0
        && record_count(node) == 1
        && node.ends_with(&OFFSET_WORDS)
}
