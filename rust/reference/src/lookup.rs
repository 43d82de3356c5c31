//! What stands under a key of a sound image.

use crate::check::{open, SoundImage};
use crate::edition::Edition;
use crate::halving::halve;
use crate::key::is_lawful_fork;
use crate::layout::{Asked, Layout};
use crate::node::{range_in_image, Node};
use crate::place::Place;
use crate::record::{child, Keyed};
use crate::verdict::{Verdict, ASKED_KEY};
use std::ops::Range;

/// Which of found, absent or refused a lookup came to.
///
/// Found has the start of the record, absent the last node read, 0 at depth 0.
#[derive(Clone, Copy, Debug, PartialEq, Eq)]
pub enum Answer {
    Found { place: Place },
    Absent { node: u32 },
    Refused { number: u32, place: Place },
}

/// The answer to a lookup with its search path and the place of the data in the image.
#[derive(Clone, Debug, PartialEq, Eq)]
pub struct Lookup {
    pub answer: Answer,
    /// How many keys were compared by halving, in all nodes of the path.
    pub compared: u32,
    /// Nodes read from the root down; unused places are 0.
    pub path: [u32; 8],
    pub path_len: usize,
    /// The data bytes of a found record: 12 in HFS, 64 in HFS Plus, 46 to 102 in a catalog.
    pub data: Option<Range<usize>>,
}

/// Looks a key up, after checking the fork byte and the whole image.
pub fn lookup<E: Edition, const N: usize>(
    image: &[u8],
    file: u32,
    fork: u8,
    start: u32,
    work: &mut [u8],
) -> Lookup {
    if !is_lawful_fork(fork) {
        return refused(Verdict::new(ASKED_KEY, Place::START));
    }
    look_up::<E, N>(image, E::ask(file, fork, start), work)
}

/// Looks a key up that may be asked for, after checking the whole image.
pub fn look_up<'a, L: Layout, const N: usize>(
    image: &'a [u8],
    asked: Asked<L::Key<'a>>,
    work: &mut [u8],
) -> Lookup {
    match open::<L, N>(image, work) {
        Ok(sound) => descend::<L, N>(&sound, asked),
        Err(fault) => refused(fault),
    }
}

pub fn refused(fault: Verdict) -> Lookup {
    let Verdict { number, place } = fault;
    without_path(Answer::Refused { number, place })
}

fn without_path(answer: Answer) -> Lookup {
    Lookup { answer, compared: 0, path: [0; 8], path_len: 0, data: None }
}

fn descend<'a, L: Layout, const N: usize>(
    sound: &SoundImage<'a, N>,
    asked: Asked<L::Key<'a>>,
) -> Lookup {
    let mut lookup = without_path(Answer::Absent { node: 0 });
    let mut number = sound.header.root;
    while lookup.path_len < sound.header.depth {
        let node = &sound.nodes[number as usize];
        lookup.path[lookup.path_len] = number;
        lookup.path_len += 1;
        lookup.answer = Answer::Absent { node: number };
        if lookup.path_len == sound.header.depth {
            search_leaf::<L, N>(&mut lookup, number, node, asked);
            break;
        }
        let halving = halve::<L::Index>(L::Index::records(node), asked.nearest);
        lookup.compared += halving.compared;
        match halving.reached {
            None => break,
            Some(record) => number = child::<L, N>(node, record),
        }
    }
    lookup
}

fn search_leaf<'a, L: Layout, const N: usize>(
    lookup: &mut Lookup,
    number: u32,
    node: &'a Node<N>,
    asked: Asked<L::Key<'a>>,
) {
    let records = L::Leaf::records(node);
    let halving = halve::<L::Leaf>(records, asked.nearest);
    lookup.compared += halving.compared;
    // Halving only knows that the key is not above the asked one.
    let has_key =
        |&record: &usize| asked.is_exact && L::Leaf::key(records, record) == asked.nearest;
    if let Some(record) = halving.reached.filter(has_key) {
        lookup.answer =
            Answer::Found { place: Place::in_node(number, L::Leaf::start(records, record)) };
        lookup.data = Some(range_in_image::<N>(number as usize, L::Leaf::data(records, record)));
    }
}
