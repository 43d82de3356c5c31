//! Who is whose parent, neighbour and bound in a built tree.

use crate::build::Built;
use crate::node::{index_starts, leaf_starts};
use crate::tree_key::TreeKey;

/// A node of the tree, named by its level (from 0) and its position on that level.
#[derive(Clone, Copy, PartialEq, Eq)]
pub struct Member {
    pub level: usize,
    pub position: usize,
}

/// All nodes of the tree in the order in which the tests visit them.
pub fn visit_order<K>(built: &Built<K>) -> Vec<Member> {
    let mut order = Vec::new();
    if built.depth() > 0 {
        let root = Member { level: 0, position: 0 };
        visit(built, root, &mut order);
    }
    order
}

fn visit<K>(built: &Built<K>, member: Member, order: &mut Vec<Member>) {
    order.push(member);
    if !member.is_leaf(built) {
        for child in member.children(built) {
            visit(built, child, order);
        }
    }
}

impl Member {
    pub fn number<K>(self, built: &Built<K>) -> u32 {
        built.levels[self.level].numbers[self.position]
    }

    /// Where the node starts in the image.
    pub fn at<K>(self, built: &Built<K>) -> usize {
        self.number(built) as usize * built.format.node_size
    }

    pub fn is_leaf<K>(self, built: &Built<K>) -> bool {
        self.level + 1 == built.depth()
    }

    pub fn record_count<K>(self, built: &Built<K>) -> usize {
        built.levels[self.level].groups[self.position].len()
    }

    pub fn children<K>(self, built: &Built<K>) -> impl Iterator<Item = Member> {
        let level = self.level + 1;
        let group = built.levels[self.level].groups[self.position].clone();
        group.map(move |position| Member { level, position })
    }

    /// The parent and the number of its record that points here.
    pub fn parent<K>(self, built: &Built<K>) -> Option<(Member, usize)> {
        let level = self.level.checked_sub(1)?;
        let groups = &built.levels[level].groups;
        let position = groups.partition_point(|group| group.end <= self.position);
        let record = self.position - groups[position].start;
        Some((Member { level, position }, record))
    }

    pub fn before<K>(self, built: &Built<K>) -> Option<u32> {
        let position = self.position.checked_sub(1)?;
        Some(built.levels[self.level].numbers[position])
    }

    pub fn after<K>(self, built: &Built<K>) -> Option<Member> {
        let position = self.position + 1;
        let exists = position < built.levels[self.level].numbers.len();
        exists.then_some(Member { level: self.level, position })
    }

    /// Where the node's records start in it, and after them the free space.
    pub fn starts<K: TreeKey>(self, built: &Built<K>) -> Vec<usize> {
        let group = built.levels[self.level].groups[self.position].clone();
        if self.is_leaf(built) {
            leaf_starts(built.format, &built.records[group])
        } else {
            index_starts(built.format, group.len())
        }
    }

    /// The key of one of the node's records.
    pub fn key<K: Clone>(self, built: &Built<K>, record: usize) -> K {
        let item = built.levels[self.level].groups[self.position].start + record;
        match built.levels.get(self.level + 1) {
            None => built.records[item].key.clone(),
            Some(below) => below.pointers[item].clone(),
        }
    }

    /// The last leaf key to the left of all that is in or below this node.
    pub fn key_before<K: Clone + Ord>(self, built: &Built<K>) -> Option<K> {
        let first_key = self.key(built, 0);
        let before = built.records.partition_point(|record| record.key < first_key);
        Some(built.records[..before].last()?.key.clone())
    }

    /// The key of the pointer record to this node, which is also its first key.
    pub fn pointer_key<K: Clone>(self, built: &Built<K>) -> Option<K> {
        let (parent, record) = self.parent(built)?;
        Some(parent.key(built, record))
    }

    /// The rank of the key of the pointer record to this node.
    pub fn pointer_rank(self, built: &Built) -> Option<u128> {
        self.pointer_key(built).map(|key| built.format.rank_of(key))
    }

    /// The key that every key here must stay below: that of the next record in the parent or, where
    /// there is none, the one that holds for the parent.
    pub fn upper_bound<K: Clone>(self, built: &Built<K>) -> Option<K> {
        let (parent, record) = self.parent(built)?;
        if record + 1 < parent.record_count(built) {
            Some(parent.key(built, record + 1))
        } else {
            parent.upper_bound(built)
        }
    }
}
