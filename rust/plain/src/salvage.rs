//! What can be salvaged under a key from an image of any state.

use crate::ascent::keys_pass;
use crate::key::{is_lawful_fork, key, packed, with_length, with_right_length, UNBOUNDED};
use crate::node::{level, whole_nodes, Node, LEAF_KIND, MOST_NODES, NODE_SIZE};
use crate::records::{data_of, has_right_offsets, records_in, start, LEAF_SIZE};
use crate::verdict::Verdict;

/// What a salvage came to, with the record's data.
#[derive(Clone, Copy, Debug, PartialEq, Eq)]
pub struct Salvage<'a> {
    /// 13 and the record's place if seen, 14 if not, else the refusal.
    pub verdict: Verdict,
    /// The part of the image with the data of a seen record.
    pub data: Option<&'a [u8; 12]>,
}

/// Finds the first record with the key in any node from 1 up that is a whole leaf by itself.
pub fn salvage(image: &[u8], file: u32, fork: u8, start: u16) -> Salvage<'_> {
    if !is_lawful_fork(fork) {
        return Salvage { verdict: Verdict::ASKED_KEY, data: None };
    }
    if image.len() > MOST_NODES * NODE_SIZE {
        return Salvage { verdict: Verdict::LENGTH, data: None };
    }
    let asked = with_length(packed(file, fork, start));
    let (nodes, _) = whole_nodes(image);
    let mut from_1 = (0..).zip(nodes).skip(1);
    let seen = from_1.find_map(|(number, node)| see(number, node, asked));
    seen.unwrap_or(Salvage { verdict: Verdict::NOT_SEEN, data: None })
}

fn see(number: u32, node: &Node, asked: u64) -> Option<Salvage<'_>> {
    let records = records_in(node, LEAF_KIND, level(node))?;
    // The keys of a leaf that counts ascend, so that most leaves need no further look.
    let (first, last) = (records.first()?, records.last()?);
    if asked < key(first) || key(last) < asked || !is_whole(node, records) {
        return None;
    }
    let seen = records.iter().position(|record| key(record) == asked)?;
    let verdict = Verdict::seen(number, start::<LEAF_SIZE>(seen));
    Some(Salvage { verdict, data: Some(data_of(&records[seen])) })
}

/// Whether the keys of a leaf, of whatever level, are lawful and ascend, and its offset words are right.
fn is_whole(node: &Node, records: &[[u8; LEAF_SIZE]]) -> bool {
    let first_key = with_right_length(key(&records[0]));
    keys_pass(records, first_key, UNBOUNDED) && has_right_offsets::<LEAF_SIZE>(node, records.len())
}
