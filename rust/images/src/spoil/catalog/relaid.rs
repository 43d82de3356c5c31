//! A leaf laid out again with other records, for changes that move what comes after them.

use crate::catalog::{Built, Key};
use crate::node::{put16, put_what_fits, write_leaf, Descriptor, Record, RECORDS_AT};
use crate::spoil::family::Member;
use crate::spoil::Patch;
use crate::tree_key::TreeKey;

/// The records of a leaf.
pub fn records(built: &Built, leaf: Member) -> Vec<Record<Key>> {
    let group = built.levels[leaf.level].groups[leaf.position].clone();
    built.records[group].to_vec()
}

/// The leaf with other records, written as far as they fit, its links and unjudged bytes as they are.
pub fn relaid(built: &Built, leaf: Member, records: &[Record<Key>]) -> Patch {
    let mut node = node_of(built, leaf).to_vec();
    let link = |position: Option<u32>| position.unwrap_or(0);
    let descriptor = Descriptor {
        forward: link(leaf.after(built).map(|after| after.number(built))),
        back: link(leaf.before(built)),
        level: built.level_byte(leaf.level),
    };
    write_leaf(built.format, &mut node, descriptor, records);
    Patch::bytes(leaf.at(built), &node)
}

/// The leaf with the data of one record right after its key, where a pad should be; all that comes
/// after moves up by one byte.
pub fn without_pad(built: &Built, leaf: Member, without: usize) -> Patch {
    let mut node = node_of(built, leaf).to_vec();
    let mut at = RECORDS_AT;
    for (index, record) in records(built, leaf).iter().enumerate() {
        put16(&mut node, built.format.node_size - 2 * (index + 1), at as u16);
        record.key.put_in_leaf(built.format, &mut node, at);
        let mut data = record.data.clone();
        at += if index == without {
            // What a reader finds on the even offset is then no type.
            data[1] = 0;
            record.key.size()
        } else {
            record.key.size_in_leaf(built.format)
        };
        put_what_fits(&mut node, at, &data);
        at += data.len();
    }
    let words = leaf.record_count(built) + 1;
    put16(&mut node, built.format.node_size - 2 * words, at as u16);
    Patch::bytes(leaf.at(built), &node)
}

fn node_of(built: &Built, leaf: Member) -> &[u8] {
    let at = leaf.at(built);
    &built.image[at..at + built.format.node_size]
}
