//! Tests 3 and 9: the chain of map nodes and the bits it carries.

use crate::header;
use crate::layout::Layout;
use crate::node::{
    back_link, ends_in, forward_link, kind, level, record_count, reserved, Node, MAP_KIND,
    RECORDS_AT,
};
use crate::node_set::NodeSet;
use crate::place::Place;
use crate::verdict::{require, Verdict, MAP_BITS, MAP_CHAIN};
use std::iter;
use std::ops::Range;

/// Test 3: follows the chain from the header and adds its nodes to those met.
pub fn follow_chain<L: Layout, const N: usize>(
    nodes: &[Node<N>],
    met: &mut NodeSet,
) -> Result<(), Verdict> {
    let mut map_bytes = header::map_record::<N>().len();
    let mut last = 0;
    met.insert(0);
    while let Some(next) = next_in_chain(nodes, last) {
        let new = (next as usize) < nodes.len() && met.insert(next);
        require(new, MAP_CHAIN, Place::of_node(last))?;
        require(is_map_node::<L, N>(&nodes[next as usize]), MAP_CHAIN, Place::of_node(next))?;
        map_bytes += map_record::<L, N>().len();
        last = next;
    }
    require(8 * map_bytes >= nodes.len(), MAP_CHAIN, Place::of_node(last))
}

/// Test 9: every bit of a chain that has passed test 3 is set exactly when its node was met.
pub fn compare_bits<L: Layout, const N: usize>(
    nodes: &[Node<N>],
    met: &NodeSet,
) -> Result<(), Verdict> {
    let first = next_in_chain(nodes, 0);
    let map_nodes = iter::successors(first, |&number| next_in_chain(nodes, number));
    let in_header = (0, header::map_record::<N>());
    let in_map_nodes = map_nodes.map(|number| (number, map_record::<L, N>()));
    let mut met = met.bytes();
    for (number, record) in iter::once(in_header).chain(in_map_nodes) {
        let start = record.start;
        let bytes = &nodes[number as usize][record];
        let (expected, later) = met.split_at(bytes.len().min(met.len()));
        if let Some(wrong) = first_wrong(bytes, expected) {
            return Err(Verdict::new(MAP_BITS, Place::in_node(number, start + wrong)));
        }
        met = later;
    }
    Ok(())
}

/// The first byte of a map record that is not as expected; the lowest wrong bit is in it.
fn first_wrong(bytes: &[u8], expected: &[u8]) -> Option<usize> {
    let (of_nodes, beyond) = bytes.split_at(expected.len());
    if of_nodes != expected {
        return of_nodes.iter().zip(expected).position(|(byte, expected)| byte != expected);
    }
    // Bits beyond the last node belong to no node, so none of them was met.
    beyond.iter().position(|&byte| byte != 0).map(|wrong| expected.len() + wrong)
}

fn next_in_chain<const N: usize>(nodes: &[Node<N>], number: u32) -> Option<u32> {
    let next = forward_link(&nodes[number as usize]);
    (next != 0).then_some(next)
}

/// Where the record of a map node stands in it.
pub fn map_record<L: Layout, const N: usize>() -> Range<usize> {
    RECORDS_AT..N - L::AFTER_MAP_RECORD
}

/// The offset words of a map node, that of its record last.
pub fn offset_words<L: Layout, const N: usize>() -> [u16; 2] {
    [map_record::<L, N>().end, RECORDS_AT].map(|start| start as u16)
}

fn is_map_node<L: Layout, const N: usize>(node: &Node<N>) -> bool {
    back_link(node) == 0
        && kind(node) == MAP_KIND
        && level(node) == 0
        && record_count(node) == 1
        && reserved(node) == 0
        && ends_in(node, offset_words::<L, N>())
}
