//! Tests 4 to 7: the walk over the tree.

use crate::header::{Header, ROOT_AT};
use crate::layout::{Layout, OrderedKey};
use crate::node::{back_link, forward_link, record_count, Node, BACK_LINK_AT, FORWARD_LINK_AT};
use crate::node_set::NodeSet;
use crate::place::Place;
use crate::position::Position;
use crate::record::{child, child_at, Keyed};
use crate::verdict::{require, Verdict, CHILD, LINKS};
use std::marker::PhantomData;

/// Levels count from the leaves up, so the root's level is the depth.
const LEAF_LEVEL: usize = 1;

/// What the header's leaf fields have to agree with.
pub struct LeafTotals {
    pub records: u32,
    pub first: u32,
    pub last: u32,
}

struct Walk<'a, 'met, 'work, L, const N: usize> {
    layout: PhantomData<L>,
    nodes: &'a [Node<N>],
    depth: usize,
    met: &'met mut NodeSet<'work>,
    /// The node met last on each level, 0 for none; the levels count from 1.
    last_met: [u32; 9],
    first_leaf: u32,
    leaf_records: u32,
}

/// Walks a tree whose header has passed test 2 and adds its nodes to those met.
pub fn walk<L: Layout, const N: usize>(
    nodes: &[Node<N>],
    header: &Header,
    met: &mut NodeSet,
) -> Result<LeafTotals, Verdict> {
    let mut walk = Walk::<L, N> {
        layout: PhantomData,
        nodes,
        depth: header.depth,
        met,
        last_met: [0; 9],
        first_leaf: 0,
        leaf_records: 0,
    };
    if header.depth > 0 {
        let level = header.depth;
        let named_at = Place::in_node(0, ROOT_AT);
        let bound = OrderedKey::UNBOUNDED;
        let root = Position { named_at, level, pointer_key: None, bound };
        walk.visit(header.root, &root)?;
        walk.test_level_ends()?;
    }
    Ok(LeafTotals {
        records: walk.leaf_records,
        first: walk.first_leaf,
        last: walk.last_met[LEAF_LEVEL],
    })
}

impl<'a, L: Layout, const N: usize> Walk<'a, '_, '_, L, N> {
    fn visit(&mut self, number: u32, position: &Position<L::Key<'a>>) -> Result<(), Verdict> {
        // Node 0 and the map chain have been met before the tree, so they fall out here too.
        let new = (number as usize) < self.nodes.len() && self.met.insert(number);
        require(new, CHILD, position.named_at)?;

        let node = &self.nodes[number as usize];
        let is_leaf = position.level == LEAF_LEVEL;
        if is_leaf {
            L::Leaf::test(node, number, position)?;
        } else {
            L::Index::test(node, number, position)?;
        }
        self.test_links(number, position.level)?;

        if is_leaf {
            self.count_leaf(number);
            Ok(())
        } else {
            self.visit_children(number, position)
        }
    }

    /// Each child lies between its pointer key and the next, or the bound from above.
    fn visit_children(
        &mut self,
        parent: u32,
        position: &Position<L::Key<'a>>,
    ) -> Result<(), Verdict> {
        let node = &self.nodes[parent as usize];
        let records = L::Index::records(node);
        let count = L::Index::count(records);
        for record in 0..count {
            let next = record + 1;
            let child_position = Position {
                named_at: Place::in_node(parent, child_at::<L, N>(node, record)),
                level: position.level - 1,
                pointer_key: Some(L::Index::key(records, record)),
                bound: if next < count { L::Index::key(records, next) } else { position.bound },
            };
            self.visit(child::<L, N>(node, record), &child_position)?;
        }
        Ok(())
    }

    fn test_links(&mut self, number: u32, level: usize) -> Result<(), Verdict> {
        let before = self.last_met[level];
        let node = &self.nodes[number as usize];
        let back_link_at = Place::in_node(number, BACK_LINK_AT);
        require(back_link(node) == before, LINKS, back_link_at)?;
        if before != 0 {
            self.test_forward_link(before, number)?;
        }
        self.last_met[level] = number;
        Ok(())
    }

    /// The levels come from the root down, so the highest one first.
    fn test_level_ends(&self) -> Result<(), Verdict> {
        for &last in self.last_met[LEAF_LEVEL..=self.depth].iter().rev() {
            self.test_forward_link(last, 0)?;
        }
        Ok(())
    }

    fn test_forward_link(&self, number: u32, right: u32) -> Result<(), Verdict> {
        let forward = forward_link(&self.nodes[number as usize]);
        require(forward == right, LINKS, Place::in_node(number, FORWARD_LINK_AT))
    }

    fn count_leaf(&mut self, number: u32) {
        if self.first_leaf == 0 {
            self.first_leaf = number;
        }
        self.leaf_records += record_count(&self.nodes[number as usize]) as u32;
    }
}
