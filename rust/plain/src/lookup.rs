//! What stands under a key of a sound image.

use crate::check::{open, SoundImage};
use crate::key::{is_lawful_fork, key, packed, with_length};
use crate::records::{child_of, data_of, records, start, INDEX_SIZE, LEAF_SIZE};
use crate::search::halve;
use crate::verdict::Verdict;

/// What a lookup came to, with its search path and the record's data.
#[derive(Clone, Copy, Debug, PartialEq, Eq)]
pub struct Lookup<'a> {
    /// 0 and the record's place if found, 12 and the last node read if absent, else the refusal.
    pub verdict: Verdict,
    /// How many keys were compared by halving, in all nodes of the path.
    pub compared: u32,
    /// Nodes read from the root down; unused places are 0.
    pub path: [u32; 8],
    pub path_len: usize,
    /// The part of the image with the data of a found record.
    pub data: Option<&'a [u8; 12]>,
}

/// Looks a key up, after the fork byte and the whole image have been checked.
///
/// It treats `work` as [`check`](crate::check) does, and leaves it as it was where the fork byte is
/// wrong.
pub fn lookup<'a>(image: &'a [u8], file: u32, fork: u8, start: u16, work: &mut [u8]) -> Lookup<'a> {
    if !is_lawful_fork(fork) {
        return without_path(Verdict::ASKED_KEY);
    }
    match open(image, work) {
        Ok(sound) => descend(&sound, with_length(packed(file, fork, start))),
        Err(fault) => without_path(fault),
    }
}

fn without_path<'a>(verdict: Verdict) -> Lookup<'a> {
    Lookup { verdict, compared: 0, path: [0; 8], path_len: 0, data: None }
}

fn descend<'a>(sound: &SoundImage<'a>, asked: u64) -> Lookup<'a> {
    let mut lookup = without_path(Verdict::absent(0));
    let mut number = sound.header.root;
    for level in (1..=sound.header.depth).rev() {
        lookup.path[lookup.path_len] = number;
        lookup.path_len += 1;
        lookup.verdict = Verdict::absent(number);
        let node = &sound.nodes[number as usize];
        if level == 1 {
            lookup.read_leaf(number, records(node), asked);
        } else {
            let pointers = records::<INDEX_SIZE>(node);
            let search = halve(pointers, asked);
            lookup.compared += search.compared;
            let Some(reached) = search.reached else { break };
            number = child_of(&pointers[reached]);
        }
    }
    lookup
}

impl<'a> Lookup<'a> {
    fn read_leaf(&mut self, number: u32, records: &'a [[u8; LEAF_SIZE]], asked: u64) {
        let search = halve(records, asked);
        self.compared += search.compared;
        // Halving knows only that the key is not above the asked one.
        if let Some(found) = search.reached.filter(|&reached| key(&records[reached]) == asked) {
            self.verdict = Verdict::found(number, start::<LEAF_SIZE>(found));
            self.data = Some(data_of(&records[found]));
        }
    }
}
