//! Turns a plan into a sound image, with an account of what stands where.

use crate::format::Format;
use crate::garbage::old_node;
use crate::key::Key;
use crate::node::*;
use crate::numbering::{number_nodes, Numbering};
use crate::plan::Plan;
use crate::rng::Rng;
use crate::shape::{add_pointers, make_records, share_given, share_nodes, share_records};
use crate::tree_key::TreeKey;
use std::ops::Range;

/// A sound image and what it holds.
pub struct Built<K = Key> {
    pub format: Format,
    pub image: Vec<u8>,
    /// Map nodes in the order of the chain.
    pub map_chain: Vec<u32>,
    /// Levels of the tree, root first.
    pub levels: Vec<Level<K>>,
    /// Leaf records in leaf order.
    pub records: Vec<Record<K>>,
    /// Free nodes, ascending.
    pub free: Vec<u32>,
}

/// One level of the tree; nodes are told apart by their position from left to right.
pub struct Level<K = Key> {
    pub numbers: Vec<u32>,
    /// Of each node: its children on the level below, or its records if it is a leaf.
    pub groups: Vec<Range<usize>>,
    /// Of each node: its first key, which the pointer record that leads to it has as well.
    pub pointers: Vec<K>,
}

impl<K> Built<K> {
    pub fn total(&self) -> u32 {
        (self.image.len() / self.format.node_size) as u32
    }

    pub fn depth(&self) -> usize {
        self.levels.len()
    }

    /// The level byte of the nodes of `levels[index]`: the depth at the root, 1 at the leaves.
    pub fn level_byte(&self, index: usize) -> u8 {
        (self.depth() - index) as u8
    }
}

/// Builds the image of a plan; the same plan always gives the same bytes.
pub fn build(plan: &Plan) -> Built {
    let mut rng = Rng::new(plan.seed);
    let groups = share_nodes(&mut rng, plan);
    let record_groups = share_records(&mut rng, plan);
    let record_count = record_groups.last().map_or(0, |group| group.end);
    let records = make_records(&mut rng, plan.format, record_count);
    lay_out(&mut rng, plan, groups, record_groups, records)
}

/// Builds the image of a plan with these records, ascending, in place of those that it would make; its
/// leaves have room for all and get one at least.
pub fn build_with_records(plan: &Plan, records: Vec<Record>) -> Built {
    let mut rng = Rng::new(plan.seed);
    let groups = share_nodes(&mut rng, plan);
    let record_groups = share_given(&mut rng, plan, records.len());
    lay_out(&mut rng, plan, groups, record_groups, records)
}

/// Builds the image whose leaves have these groups of records, under these groups of children.
pub fn lay_out<K: TreeKey>(
    rng: &mut Rng,
    plan: &Plan,
    mut groups: Vec<Vec<Range<usize>>>,
    record_groups: Vec<Range<usize>>,
    records: Vec<Record<K>>,
) -> Built<K> {
    assert!(plan.total_nodes() <= MOST_NODES, "too many nodes planned");
    if !plan.level_sizes.is_empty() {
        groups.push(record_groups);
    }
    let shape = add_pointers(groups, &records);
    let Numbering { map_chain, levels, free } = number_nodes(rng, plan);
    let levels = levels
        .into_iter()
        .zip(shape)
        .map(|(numbers, level)| Level { numbers, groups: level.groups, pointers: level.pointers })
        .collect();
    let format = plan.format;
    let image = vec![0; plan.total_nodes() * format.node_size];
    let mut built = Built { format, image, map_chain, levels, records, free };
    write_image(rng, plan, &mut built);
    built
}

fn write_image<K: TreeKey>(rng: &mut Rng, plan: &Plan, built: &mut Built<K>) {
    write_header_node(rng, plan, built);
    for (index, &number) in built.map_chain.iter().enumerate() {
        let node = map_node(rng, plan, built.map_chain.get(index + 1).copied());
        put_node(&mut built.image, number, &node);
    }
    for level in 0..built.levels.len() {
        for position in 0..built.levels[level].numbers.len() {
            let node = tree_node(blank(rng, plan), built, level, position);
            put_node(&mut built.image, built.levels[level].numbers[position], &node);
        }
    }
    if plan.old_garbage {
        for &number in &built.free {
            let node = old_node(rng, built.format, &built.records);
            put_node(&mut built.image, number, &node);
        }
    }
    write_map_bits(built);
}

fn write_header_node<K>(rng: &mut Rng, plan: &Plan, built: &mut Built<K>) {
    let ends = |level: &Level<K>| Some((*level.numbers.first()?, *level.numbers.last()?));
    let (first_leaf, last_leaf) = built.levels.last().and_then(ends).unwrap_or((0, 0));
    let fields = HeaderFields {
        forward: built.map_chain.first().copied().unwrap_or(0),
        depth: built.levels.len() as u16,
        root: built.levels.first().map_or(0, |level| level.numbers[0]),
        leaf_records: built.records.len() as u32,
        first_leaf,
        last_leaf,
        total: built.total(),
        free: built.free.len() as u32,
    };
    let mut node = blank(rng, plan);
    // The map record is no place for noise: every one of its bits is judged.
    node[built.format.header_map()].fill(0);
    write_header(built.format, &mut node, &fields);
    put_node(&mut built.image, 0, &node);
}

fn map_node(rng: &mut Rng, plan: &Plan, next: Option<u32>) -> Vec<u8> {
    let mut node = vec![0; plan.format.node_size];
    if plan.noise {
        // Between the record and the offset words; in HFS they meet.
        let free = plan.format.node_map().end..plan.format.node_size - 4;
        rng.fill(&mut node[free]);
    }
    write_map(plan.format, &mut node, next.unwrap_or(0));
    node
}

fn tree_node<K: TreeKey>(
    mut node: Vec<u8>,
    built: &Built<K>,
    level: usize,
    position: usize,
) -> Vec<u8> {
    let this = &built.levels[level];
    let descriptor = Descriptor {
        forward: this.numbers.get(position + 1).copied().unwrap_or(0),
        back: if position == 0 { 0 } else { this.numbers[position - 1] },
        level: built.level_byte(level),
    };
    let group = this.groups[position].clone();
    match built.levels.get(level + 1) {
        None => write_leaf(built.format, &mut node, descriptor, &built.records[group]),
        Some(below) => {
            let pointer = |child: usize| Pointer {
                key: below.pointers[child].clone(),
                child: below.numbers[child],
            };
            let pointers: Vec<Pointer<K>> = group.map(pointer).collect();
            write_index(built.format, &mut node, descriptor, &pointers);
        }
    }
    node
}

fn write_map_bits<K>(built: &mut Built<K>) {
    let tree = built.levels.iter().flat_map(|level| &level.numbers);
    let used = built.map_chain.iter().chain(tree).chain([&0]);
    for &number in used {
        let at = map_byte_at(built.format, &built.map_chain, number as usize);
        built.image[at] |= 0x80 >> (number % 8);
    }
}

fn blank(rng: &mut Rng, plan: &Plan) -> Vec<u8> {
    let mut node = vec![0; plan.format.node_size];
    if plan.noise {
        rng.fill(&mut node);
    }
    node
}
