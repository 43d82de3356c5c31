//! Lays a fresh tree down: the records of a row as an HFS image, in the fewest nodes.

use crate::fresh_node::{
    write_header, write_index, write_leaf, write_map_node, FreshNode, LeafBytes, Links,
    INDEX_RECORDS, LEAF_RECORDS,
};
use crate::header::{self, Header};
use crate::hfs::{key, Hfs, NODE_SIZE};
use crate::layout::Layout;
use crate::map;
use crate::node::MOST_NODES;
use crate::place::Place;
use crate::side_by_side::FixedKeys;
use crate::verdict::{require, Verdict, LENGTH, RECORD_ROW, TARGET_NODES};
use std::iter;
use std::ops::Range;

/// Writes an image as long as the target whose leaf records are those of the row, 20 bytes each.
///
/// It answers 0, or a refusal that leaves the target as it was: 1 if that is not 1 to 65,536 whole
/// nodes, 19 if the row is not of whole records with lawful and strictly ascending keys, 20 if the
/// target has fewer nodes than it takes. The header comes first, then as many map nodes as the target
/// needs, then the leaves and each level of index nodes, the root last. All other bytes are zero.
pub fn write_tree(row: &[u8], target: &mut [u8]) -> Verdict {
    match write_tested(row, target) {
        Ok(()) => Verdict::SOUND,
        Err(refusal) => refusal,
    }
}

fn write_tested(row: &[u8], target: &mut [u8]) -> Result<(), Verdict> {
    let (nodes, broken) = target.as_chunks_mut();
    let right_length = broken.is_empty() && (1..=MOST_NODES).contains(&nodes.len());
    require(right_length, LENGTH, Place::START)?;

    let (records, broken) = row.as_chunks();
    let right_row = broken.is_empty() && are_lawful(records);
    require(right_row, RECORD_ROW, Place::START)?;

    let plan = Plan { node_count: nodes.len(), record_count: records.len() };
    require(plan.used() <= nodes.len(), TARGET_NODES, Place::START)?;
    plan.write(records, nodes);
    Ok(())
}

/// Whether all keys are lawful and each is above the one before.
fn are_lawful(records: &[LeafBytes]) -> bool {
    let mut lowest = 0;
    records.iter().all(|record| {
        let packed = key(record).packed();
        let is_above = packed >= lowest;
        lowest = packed + 1;
        is_above && Hfs::has_lawful_key(record)
    })
}

/// Which nodes of an image the header, the map nodes and the tree over so many records take.
struct Plan {
    node_count: usize,
    record_count: usize,
}

impl Plan {
    /// The fewest that have, with the header, a bit for each node.
    fn map_nodes(&self) -> usize {
        self.node_count.saturating_sub(header_bits()).div_ceil(map_node_bits())
    }

    /// The nodes of each level, leaves first and the root last; there is none over no records.
    fn levels(&self) -> impl Iterator<Item = Range<usize>> {
        let first_leaf = 1 + self.map_nodes();
        let leaves = first_leaf..first_leaf + self.record_count.div_ceil(LEAF_RECORDS);
        let above = |level: &Range<usize>| {
            let size = level.len().div_ceil(INDEX_RECORDS);
            (level.len() > 1).then(|| level.end..level.end + size)
        };
        iter::successors((!leaves.is_empty()).then_some(leaves), above)
    }

    /// How many nodes are in use, which are the first ones.
    fn used(&self) -> usize {
        self.levels().last().map_or(1 + self.map_nodes(), |root| root.end)
    }

    fn header(&self) -> Header {
        let ends = |leaves: Range<usize>| (leaves.start, leaves.end - 1);
        let (first_leaf, last_leaf) = self.levels().next().map_or((0, 0), ends);
        Header {
            depth: self.levels().count(),
            root: self.levels().last().map_or(0, |root| root.start as u32),
            leaf_records: self.record_count as u32,
            first_leaf: first_leaf as u32,
            last_leaf: last_leaf as u32,
            node_size: NODE_SIZE as u16,
            key_length: Hfs::KEY_LENGTH,
            total_nodes: self.node_count as u32,
            free_nodes: (self.node_count - self.used()) as u32,
        }
    }

    fn write(&self, records: &[LeafBytes], nodes: &mut [FreshNode]) {
        self.write_map(nodes);
        let mut levels = self.levels();
        if let Some(leaves) = levels.next() {
            write_leaves(nodes, &leaves, records);
            let mut below = leaves;
            for (level, number) in levels.zip(2..) {
                write_index_level(nodes, &below, &level, number);
                below = level;
            }
        }
        nodes[self.used()..].as_flattened_mut().fill(0);
    }

    /// Writes the header and the map nodes, whose bits are set for the nodes in use.
    fn write_map(&self, nodes: &mut [FreshNode]) {
        let mut used = self.used();
        let chain = 0..1 + self.map_nodes();
        write_header(&mut nodes[0], links(&chain, 0).forward, &self.header(), used);
        used = used.saturating_sub(header_bits());
        for number in chain.clone().skip(1) {
            write_map_node(&mut nodes[number], links(&chain, number).forward, used);
            used = used.saturating_sub(map_node_bits());
        }
    }
}

fn header_bits() -> usize {
    8 * header::map_record::<NODE_SIZE>().len()
}

fn map_node_bits() -> usize {
    8 * map::map_record::<Hfs, NODE_SIZE>().len()
}

fn write_leaves(nodes: &mut [FreshNode], leaves: &Range<usize>, records: &[LeafBytes]) {
    let (full, rest) = records.as_chunks::<LEAF_RECORDS>();
    let mut fresh = nodes[leaves.clone()].iter_mut().zip(leaves.clone());
    for (records, (node, number)) in full.iter().zip(&mut fresh) {
        write_leaf(node, links(leaves, number), records);
    }
    if let Some((node, number)) = fresh.next() {
        write_leaf(node, links(leaves, number), rest);
    }
}

/// Writes the index nodes of a level over those of the level below, which have been written.
fn write_index_level(
    nodes: &mut [FreshNode],
    below: &Range<usize>,
    level: &Range<usize>,
    level_number: u8,
) {
    let (children, fresh) = nodes[below.start..level.end].split_at_mut(below.len());
    let groups = children.chunks(INDEX_RECORDS).zip(below.clone().step_by(INDEX_RECORDS));
    for ((children, first_child), (node, number)) in groups.zip(fresh.iter_mut().zip(level.clone()))
    {
        write_index(node, links(level, number), level_number, children, first_child as u32);
    }
}

/// The neighbours of a node among the nodes of its level or, forward only, of the map chain.
fn links(level: &Range<usize>, number: usize) -> Links {
    let forward = if number + 1 < level.end { number + 1 } else { 0 };
    let back = if number > level.start { number - 1 } else { 0 };
    Links { forward: forward as u32, back: back as u32 }
}
