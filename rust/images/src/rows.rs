//! Rows of leaf records of HFS, the images that are laid down from them, and what these need.

mod laid_down;
mod spoil;

pub use laid_down::laid_down;
pub use spoil::{spoilings, RowSpoiling};

use crate::format::Format;
use crate::key::Key;
use crate::largest::{largest_plan, lowest_tree_over, map_nodes_for};
use crate::node::Record;
use crate::plan::Plan;
use crate::rng::Rng;
use crate::shape::make_records;
use crate::tree_key::TreeKey;

const FORMAT: Format = Format::HFS;

/// The bytes of a record with its key and 12 bytes of data.
pub const RECORD_SIZE: usize = 20;

/// Where in the order of all keys those of a row lie.
#[derive(Clone, Copy, Debug, PartialEq, Eq)]
pub enum Spread {
    /// Consecutive ones from the lowest there is.
    FromLowest,
    /// Consecutive ones up to the highest there is.
    ToHighest,
    /// Consecutive ones, half of them in the last blocks of a fork and half in the first of the next.
    AcrossForks,
    /// The first block and the last one of each fork of file after file.
    ForkEnds,
    /// From the lowest there is to the highest, as far apart as they can be.
    Evenly,
    /// Near to each other or far apart, as chance has it.
    Random,
}

pub const SPREADS: [Spread; 6] = [
    Spread::FromLowest,
    Spread::ToHighest,
    Spread::AcrossForks,
    Spread::ForkEnds,
    Spread::Evenly,
    Spread::Random,
];

/// Records with strictly ascending keys.
#[derive(Clone)]
pub struct Row {
    pub records: Vec<Record>,
    pub bytes: Vec<u8>,
}

impl Row {
    pub fn of(records: Vec<Record>) -> Row {
        let mut bytes = Vec::with_capacity(records.len() * RECORD_SIZE);
        for Record { key, data } in &records {
            bytes.extend(key.bytes());
            bytes.extend(data);
        }
        Row { records, bytes }
    }

    /// So many records, with random data.
    pub fn random(rng: &mut Rng, count: usize, spread: Spread) -> Row {
        let keys_of_fork = 1 << FORMAT.start_bits();
        match spread {
            Spread::FromLowest => Row::of_ranks(rng, count, 0..),
            Spread::ToHighest => Row::of_ranks(rng, count, FORMAT.lawful_keys() - count as u128..),
            Spread::AcrossForks => {
                let next_fork = u128::from(rng.between(1 << 8, 1 << 32)) * keys_of_fork;
                Row::of_ranks(rng, count, next_fork - count as u128 / 2..)
            }
            Spread::ForkEnds => {
                let ends = |fork: u128| [fork * keys_of_fork, (fork + 1) * keys_of_fork - 1];
                Row::of_ranks(rng, count, (0..).flat_map(ends))
            }
            Spread::Evenly => {
                let (highest, gaps) = (FORMAT.lawful_keys() - 1, count.max(2) as u128 - 1);
                Row::of_ranks(rng, count, (0..).map(|index| index * highest / gaps))
            }
            Spread::Random => Row::of(make_records(rng, FORMAT, count)),
        }
    }

    /// The records of the first so many keys, by their ranks among all lawful ones.
    fn of_ranks(rng: &mut Rng, count: usize, ranks: impl Iterator<Item = u128>) -> Row {
        let keys = ranks.take(count).map(|rank| FORMAT.key_of_rank(rank));
        Row::of(keys.map(|key| Record { key, data: Key::any_data(rng, FORMAT) }).collect())
    }
}

/// Thirty records, which take two leaves and a root.
pub fn two_level() -> Row {
    Row::random(&mut Rng::new(30), 30, Spread::Random)
}

/// The nodes of the target of that row, of which one is left over.
pub const TWO_LEVEL_NODES: usize = 5;

/// The longest row that a target of so many nodes, at least one, has room for.
pub fn longest(nodes: usize) -> Row {
    Row::random(&mut Rng::new(31), most_records(nodes), Spread::Random)
}

/// The most records that a target of so many nodes, at least one, has room for.
pub fn most_records(nodes: usize) -> usize {
    let leaves = largest_plan(FORMAT, 0, nodes).level_sizes.last().copied();
    leaves.unwrap_or(0) * FORMAT.most_leaf_records()
}

/// The nodes of the smallest target that has room for so many records.
pub fn least_nodes(record_count: usize) -> usize {
    let leaves = record_count.div_ceil(FORMAT.most_leaf_records());
    Plan::tidy(0, &lowest_tree_over(leaves, FORMAT.most_index_records())).total_nodes()
}

/// The map nodes of a target of so many nodes.
pub fn map_nodes(nodes: usize) -> usize {
    map_nodes_for(FORMAT, nodes)
}
