//! Tests 4 to 7: the walk over the tree.

use crate::ascent::keys_pass;
use crate::fault::fault_of;
use crate::header::{Header, ROOT_AT};
use crate::key::{key, with_right_length, KEY_SIZE, UNBOUNDED};
use crate::node::{
    back_link, forward_link, Node, BACK_LINK_AT, FORWARD_LINK_AT, INDEX_KIND, LEAF_KIND, RECORDS_AT,
};
use crate::node_set::NodeSet;
use crate::records::{child_of, has_right_offsets, records_in, start, INDEX_SIZE, LEAF_SIZE};
use crate::verdict::{require, Verdict};

const LEAF_LEVEL: u8 = 1;
const NAMED_IN_HEADER: (u32, usize) = (0, ROOT_AT);

/// What the tree asks of a node.
#[derive(Clone, Copy)]
pub struct Position {
    /// The node and the offset where its number stands.
    pub named_at: (u32, usize),
    pub level: u8,
    /// The key of the pointer that leads to it.
    pub first_key: u64,
    /// The nearest higher pointer key on the path to it.
    pub bound: u64,
}

/// What the header's leaf fields have to agree with.
#[derive(Default)]
pub struct Leaves {
    pub records: u32,
    pub first: u32,
    pub last: u32,
}

/// The node met last on a level; 0 before there is one.
#[derive(Clone, Copy, Default)]
struct LastMet {
    number: u32,
    forward_link: u32,
}

struct Walk<'a, 'work> {
    nodes: &'a [Node],
    met: &'a mut NodeSet<'work>,
    /// By their level, which counts from 1 at the leaves.
    last_met: [LastMet; 9],
    leaves: Leaves,
}

/// Walks the tree and adds its nodes to those met.
pub fn walk(nodes: &[Node], header: &Header, met: &mut NodeSet) -> Result<Leaves, Verdict> {
    let last_met = [LastMet::default(); 9];
    let mut walk = Walk { nodes, met, last_met, leaves: Leaves::default() };
    if header.depth > 0 {
        walk.visit_root(header)?;
        walk.test_level_ends(header.depth)?;
    }
    walk.leaves.last = walk.last_met[usize::from(LEAF_LEVEL)].number;
    Ok(walk.leaves)
}

impl<'a> Walk<'a, '_> {
    fn visit_root(&mut self, header: &Header) -> Result<(), Verdict> {
        let root = self.nodes.get(header.root as usize).ok_or(Verdict::child(NAMED_IN_HEADER))?;
        let record = root[RECORDS_AT..].first_chunk::<KEY_SIZE>().expect("a node has a record");
        // No pointer leads to the root, so that it is asked for the key that it has.
        let first_key = with_right_length(key(record));
        let level = header.depth;
        let bound = UNBOUNDED;
        self.visit(header.root, Position { named_at: NAMED_IN_HEADER, level, first_key, bound })
    }

    fn visit(&mut self, number: u32, position: Position) -> Result<(), Verdict> {
        if position.level == LEAF_LEVEL {
            self.visit_leaf(number, position)
        } else {
            self.visit_index(number, position)
        }
    }

    #[inline(always)]
    fn visit_leaf(&mut self, number: u32, position: Position) -> Result<(), Verdict> {
        let records = self.test::<LEAF_SIZE>(number, LEAF_KIND, position)?;
        self.leaves.records += records.len() as u32;
        Ok(())
    }

    /// Each child starts with its pointer's key, and stays below the next one or the bound.
    fn visit_index(&mut self, number: u32, position: Position) -> Result<(), Verdict> {
        let records = self.test::<INDEX_SIZE>(number, INDEX_KIND, position)?;
        let level = position.level - 1;
        let mut first_key = position.first_key;
        for (index, record) in records.iter().enumerate() {
            let named_at = (number, start::<INDEX_SIZE>(index) + KEY_SIZE);
            let bound = records.get(index + 1).map_or(position.bound, key);
            let child = Position { named_at, level, first_key, bound };
            if level == LEAF_LEVEL {
                self.visit_leaf(child_of(record), child)?;
            } else {
                self.visit_index(child_of(record), child)?;
            }
            first_key = bound;
        }
        Ok(())
    }

    /// Tests 4 to 7 at a node; hands out its records.
    #[inline(always)]
    fn test<const SIZE: usize>(
        &mut self,
        number: u32,
        kind: u8,
        position: Position,
    ) -> Result<&'a [[u8; SIZE]], Verdict> {
        // The header and the map chain have been met before.
        let node = self.nodes.get(number as usize).filter(|_| self.met.insert(number));
        let Some(node) = node else { return Err(Verdict::child(position.named_at)) };
        let Some(records) = records_in::<SIZE>(node, kind, position.level) else {
            return Err(Verdict::node_form(number));
        };
        // The offset words come last in the node, and memory is quickest read in its order.
        let passes = keys_pass(records, position.first_key, position.bound)
            && has_right_offsets::<SIZE>(node, records.len());
        if !passes {
            return Err(fault_of(node, records, number, position));
        }
        self.test_links(node, number, position.level)?;
        Ok(records)
    }

    fn test_links(&mut self, node: &Node, number: u32, level: u8) -> Result<(), Verdict> {
        let before = &mut self.last_met[usize::from(level)];
        require(back_link(node) == before.number, Verdict::links(number, BACK_LINK_AT))?;
        if before.number != 0 {
            let wrong = Verdict::links(before.number, FORWARD_LINK_AT);
            require(before.forward_link == number, wrong)?;
        } else if level == LEAF_LEVEL {
            self.leaves.first = number;
        }
        *before = LastMet { number, forward_link: forward_link(node) };
        Ok(())
    }

    /// Nothing comes after the last node of a level; the root's level is the first.
    fn test_level_ends(&self, depth: u8) -> Result<(), Verdict> {
        for last in self.last_met[1..=usize::from(depth)].iter().rev() {
            require(last.forward_link == 0, Verdict::links(last.number, FORWARD_LINK_AT))?;
        }
        Ok(())
    }
}
