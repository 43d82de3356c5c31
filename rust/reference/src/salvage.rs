//! What can be salvaged under a key from an image of any state.

use crate::edition::Edition;
use crate::key::is_lawful_fork;
use crate::layout::{Asked, Layout};
use crate::node::{range_in_image, whole_nodes, Node, MOST_NODES};
use crate::place::Place;
use crate::record::Keyed;
use crate::verdict::{ASKED_KEY, LENGTH};
use std::ops::Range;

/// Which of seen, not seen or refused a salvage came to; seen has the start of the record.
#[derive(Clone, Copy, Debug, PartialEq, Eq)]
pub enum SalvageAnswer {
    Seen { place: Place },
    NotSeen,
    Refused { number: u32, place: Place },
}

/// The answer to a salvage and the place of the data in the image.
#[derive(Clone, Debug, PartialEq, Eq)]
pub struct Salvage {
    pub answer: SalvageAnswer,
    /// The data bytes of a seen record: 12 in HFS, 64 in HFS Plus, 46 to 102 in a catalog.
    pub data: Option<Range<usize>>,
}

const NOT_SEEN: Salvage = Salvage { answer: SalvageAnswer::NotSeen, data: None };

/// Finds the first record with the key in any node from 1 up that looks like a leaf.
pub fn salvage<E: Edition, const N: usize>(
    image: &[u8],
    file: u32,
    fork: u8,
    start: u32,
) -> Salvage {
    if !is_lawful_fork(fork) {
        return refused(ASKED_KEY);
    }
    salvage_asked::<E, N>(image, E::ask(file, fork, start))
}

/// Salvages under a key that may be asked for.
pub fn salvage_asked<'a, L: Layout, const N: usize>(
    image: &'a [u8],
    asked: Asked<L::Key<'a>>,
) -> Salvage {
    if image.len() > MOST_NODES * N {
        return refused(LENGTH);
    }
    if !asked.is_exact {
        return NOT_SEEN;
    }
    for (number, node) in whole_nodes::<N>(image).iter().enumerate().skip(1) {
        if let Some(record) = find_in_any::<L, N>(node, asked.nearest) {
            return seen::<L, N>(number, node, record);
        }
    }
    NOT_SEEN
}

fn find_in_any<'a, L: Layout, const N: usize>(
    node: &'a Node<N>,
    asked: L::Key<'a>,
) -> Option<usize> {
    if !L::Leaf::is_well_formed(node) {
        return None;
    }
    let records = L::Leaf::records(node);
    let ascend = L::Leaf::count_ascending(records) == L::Leaf::count(records);
    ascend.then(|| L::find(records, asked)).flatten()
}

fn seen<L: Layout, const N: usize>(number: usize, node: &Node<N>, record: usize) -> Salvage {
    let records = L::Leaf::records(node);
    let place = Place::in_node(number as u32, L::Leaf::start(records, record));
    Salvage {
        answer: SalvageAnswer::Seen { place },
        data: Some(range_in_image::<N>(number, L::Leaf::data(records, record))),
    }
}

pub fn refused(number: u32) -> Salvage {
    Salvage { answer: SalvageAnswer::Refused { number, place: Place::START }, data: None }
}
