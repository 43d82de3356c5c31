//! The image that is laid down from a row, node by node as the request has them.

use super::{map_nodes, FORMAT};
use crate::key::Key;
use crate::node::*;

/// The image of a tree over these records, ascending, in so many nodes, which have room for it.
pub fn laid_down(records: &[Record], nodes: usize) -> Vec<u8> {
    let map_chain: Vec<u32> = (1..=map_nodes(nodes) as u32).collect();
    let mut fresh = Fresh { image: vec![0; nodes * FORMAT.node_size], used: 0 };
    let link = |number: usize| map_chain.get(number).copied().unwrap_or(0);
    // Node 0 gets its fields last.
    fresh.add(|_| ());
    for number in 1..=map_chain.len() {
        fresh.add(|node| write_map(FORMAT, node, link(number)));
    }
    let leaves = fresh.add_level(records, FORMAT.most_leaf_records(), |node, at, group| {
        write_leaf(FORMAT, node, Descriptor { level: 1, ..at }, group);
        group[0].key
    });
    let mut fields = HeaderFields {
        forward: link(0),
        leaf_records: records.len() as u32,
        first_leaf: leaves.first().map_or(0, |leaf| leaf.child),
        last_leaf: leaves.last().map_or(0, |leaf| leaf.child),
        total: nodes as u32,
        depth: u16::from(!leaves.is_empty()),
        ..HeaderFields::default()
    };
    let mut top = leaves;
    while top.len() > 1 {
        fields.depth += 1;
        let level = fields.depth as u8;
        top = fresh.add_level(&top, FORMAT.most_index_records(), |node, at, group| {
            write_index(FORMAT, node, Descriptor { level, ..at }, group);
            group[0].key
        });
    }
    fields.root = top.first().map_or(0, |root| root.child);
    fields.free = (nodes - fresh.used) as u32;
    fresh.finish(&fields, &map_chain)
}

/// An image whose first nodes are in use.
struct Fresh {
    image: Vec<u8>,
    used: usize,
}

impl Fresh {
    /// Writes the next node, and says what the writing does.
    fn add<T>(&mut self, write: impl FnOnce(&mut [u8]) -> T) -> T {
        let at = self.used * FORMAT.node_size;
        self.used += 1;
        write(&mut self.image[at..at + FORMAT.node_size])
    }

    /// Writes a node for each group of items, all but the last of the most that there can be; writing
    /// one says its first key. Says the pointers to all of them.
    fn add_level<T>(
        &mut self,
        items: &[T],
        most: usize,
        write: impl Fn(&mut [u8], Descriptor, &[T]) -> Key,
    ) -> Vec<Pointer> {
        let first = self.used as u32;
        let last = first + items.len().div_ceil(most) as u32 - u32::from(!items.is_empty());
        let mut pointers = Vec::new();
        for (child, group) in (first..).zip(items.chunks(most)) {
            let forward = if child < last { child + 1 } else { 0 };
            let back = if child > first { child - 1 } else { 0 };
            let key = self.add(|node| write(node, Descriptor { forward, back, level: 0 }, group));
            pointers.push(Pointer { key, child });
        }
        pointers
    }

    fn finish(mut self, fields: &HeaderFields, map_chain: &[u32]) -> Vec<u8> {
        write_header(FORMAT, &mut self.image[..FORMAT.node_size], fields);
        for number in 0..self.used {
            self.image[map_byte_at(FORMAT, map_chain, number)] |= 0x80 >> (number % 8);
        }
        self.image
    }
}
