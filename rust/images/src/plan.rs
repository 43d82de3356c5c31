//! What a generated image is to look like.

use crate::format::Format;
use crate::rng::Rng;
use std::ops::RangeInclusive;

/// The wishes for a generated sound image.
#[derive(Clone, Debug)]
pub struct Plan {
    pub format: Format,
    pub seed: u64,
    /// Nodes on each level, root first; empty for depth 0. A level has at least as many nodes as
    /// the one above it and at most as many times more as fit in an index node, 35 times in HFS.
    pub level_sizes: Vec<usize>,
    pub records_per_leaf: RangeInclusive<usize>,
    /// Map nodes wanted; more are added if the nodes need them.
    pub map_nodes: usize,
    pub free_nodes: usize,
    /// Node numbers in no order, instead of level by level with the free nodes last.
    pub shuffled: bool,
    /// Free nodes hold what was once in them, instead of zeros.
    pub old_garbage: bool,
    /// Bytes that no rule judges hold noise, instead of zeros.
    pub noise: bool,
}

impl Plan {
    /// A tidy HFS tree with full leaves, nothing free and no map node unless it is needed.
    pub fn tidy(seed: u64, level_sizes: &[usize]) -> Plan {
        Plan::tidy_in(Format::HFS, seed, level_sizes)
    }

    /// A tidy tree as `tidy` has it, in any format.
    pub fn tidy_in(format: Format, seed: u64, level_sizes: &[usize]) -> Plan {
        let most_in_leaf = format.most_leaf_records();
        Plan {
            format,
            seed,
            level_sizes: level_sizes.to_vec(),
            records_per_leaf: most_in_leaf..=most_in_leaf,
            map_nodes: 0,
            free_nodes: 0,
            shuffled: false,
            old_garbage: false,
            noise: false,
        }
    }

    /// The same tree as `tidy` would make, in an untidy image.
    pub fn untidy(seed: u64, level_sizes: &[usize]) -> Plan {
        Plan::untidy_in(Format::HFS, seed, level_sizes)
    }

    /// The same tree as `tidy_in` would make, in an untidy image.
    pub fn untidy_in(format: Format, seed: u64, level_sizes: &[usize]) -> Plan {
        Plan {
            records_per_leaf: 1..=format.most_leaf_records(),
            free_nodes: 9,
            shuffled: true,
            old_garbage: true,
            noise: true,
            ..Plan::tidy_in(format, seed, level_sizes)
        }
    }

    /// An HFS plan of the given depth in which everything else is left to chance.
    pub fn random(seed: u64, depth: usize, widest: usize) -> Plan {
        Plan::random_in(Format::HFS, seed, depth, widest)
    }

    /// A plan as `random` has it, in any format.
    pub fn random_in(format: Format, seed: u64, depth: usize, widest: usize) -> Plan {
        let mut rng = Rng::new(!seed);
        let most_in_leaf = rng.between(1, format.most_leaf_records() as u64) as usize;
        let least_in_leaf = rng.between(1, most_in_leaf as u64) as usize;
        Plan {
            format,
            seed,
            level_sizes: random_level_sizes(&mut rng, format, depth, widest),
            records_per_leaf: least_in_leaf..=most_in_leaf,
            map_nodes: rng.index(3),
            free_nodes: rng.index(12),
            shuffled: rng.flip(),
            old_garbage: rng.flip(),
            noise: rng.flip(),
        }
    }

    pub fn tree_nodes(&self) -> usize {
        self.level_sizes.iter().sum()
    }

    /// The wanted map nodes or, if more, those it takes to have a bit for every node.
    pub fn map_nodes_made(&self) -> usize {
        let others = 1 + self.tree_nodes() + self.free_nodes;
        let mut made = self.map_nodes;
        while self.format.header_bits() + made * self.format.map_node_bits() < others + made {
            made += 1;
        }
        made
    }

    pub fn total_nodes(&self) -> usize {
        1 + self.map_nodes_made() + self.tree_nodes() + self.free_nodes
    }
}

fn random_level_sizes(rng: &mut Rng, format: Format, depth: usize, widest: usize) -> Vec<usize> {
    let mut sizes = Vec::new();
    for _ in 0..depth {
        let size = match sizes.last() {
            None => 1,
            Some(&above) => {
                let most = widest.min(above * format.most_index_records()).max(above);
                rng.between(above as u64, most as u64) as usize
            }
        };
        sizes.push(size);
    }
    sizes
}
