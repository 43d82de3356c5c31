//! Number 5: records that no leaf may have.

use super::relaid::{records, relaid, without_pad};
use super::{ends, record_at};
use crate::catalog::entry::{data_size, DIRECTORY, DIRECTORY_THREAD, FILE, TYPES};
use crate::catalog::{Built, Key, MOST_NAME};
use crate::node::{fit_in_leaf, leaf_starts, Record};
use crate::spoil::family::Member;
use crate::spoil::Patch;
use crate::tree_key::TreeKey;

const MOST_RECORDS: usize = 8;

/// The sizes that a leaf record can have, all of them even.
const LEAST_SIZE: usize = 54;
const MOST_SIZE: usize = 140;

pub fn faults(built: &Built, leaf: Member) -> Vec<(String, Patch)> {
    let mut found = Vec::new();
    for record in ends(built, leaf) {
        found.extend(wrong_lengths(built, leaf, record));
        found.extend(wrong_types(built, leaf, record));
        found.extend(name_of_32_bytes(built, leaf, record));
        found.extend(data_at_odd_offset(built, leaf, record));
    }
    found.push(("nine_records".to_string(), relaid(built, leaf, &nine_threads())));
    found.extend(into_the_offset_words(built, leaf));
    found
}

/// Key lengths that are not 6 plus the name length, and name lengths that the key has not.
fn wrong_lengths(built: &Built, leaf: Member, record: usize) -> Vec<(String, Patch)> {
    let at = record_at(built, leaf, record);
    let name = leaf.key(built, record).name.len() as u8;
    let mut wrong = vec![
        ("key_length_one_short", Patch::byte(at, 5 + name)),
        ("key_length_ff", Patch::byte(at, 0xFF)),
        ("name_length_one_over", Patch::byte(at + 6, name + 1)),
        ("name_length_ff", Patch::byte(at + 6, 0xFF)),
    ];
    if name.is_multiple_of(2) {
        wrong.push(("key_length_counts_the_pad", Patch::byte(at, 7 + name)));
    } else {
        wrong.push(("key_length_one_over", Patch::byte(at, 7 + name)));
        // A pad would have room for one byte more, but there is none.
        let lengths = with_lengths(built, at, name + 1);
        wrong.push(("both_lengths_one_over", Patch::bytes(at, &lengths)));
    }
    if usize::from(name) < MOST_NAME {
        wrong.push(("key_length_as_in_an_index", Patch::byte(at, 37)));
    }
    wrong.into_iter().map(|(what, patch)| (format!("{what}_of_{record}"), patch)).collect()
}

/// The bytes of a key up to its name length, with lengths for another name.
fn with_lengths(built: &Built, at: usize, name: u8) -> [u8; 7] {
    let mut bytes = [0; 7];
    bytes.copy_from_slice(&built.image[at..at + 7]);
    (bytes[0], bytes[6]) = (6 + name, name);
    bytes
}

/// Types that there are not, and those whose data have another size.
fn wrong_types(built: &Built, leaf: Member, record: usize) -> Vec<(String, Patch)> {
    let key = leaf.key(built, record);
    let at = record_at(built, leaf, record) + key.size_in_leaf(built.format);
    let size = data_size(built.image[at]);
    let of_other_size = TYPES.into_iter().filter(|&other| data_size(other) != size);
    let wrong = [0, 5, 0xFF].into_iter().chain(of_other_size);
    wrong
        .map(|other| (format!("type_{other}_on_{size}_bytes_of_{record}"), Patch::byte(at, other)))
        .collect()
}

/// A name one byte too long, with lengths and offset words that agree with it.
fn name_of_32_bytes(built: &Built, leaf: Member, record: usize) -> Option<(String, Patch)> {
    let mut records = records(built, leaf);
    records[record].key.name.resize(MOST_NAME + 1, b'n');
    let what = format!("name_of_32_bytes_of_{record}");
    fit_in_leaf(built.format, &records).then(|| (what, relaid(built, leaf, &records)))
}

fn data_at_odd_offset(built: &Built, leaf: Member, record: usize) -> Option<(String, Patch)> {
    let key = leaf.key(built, record);
    let has_pad = key.size() < key.size_in_leaf(built.format);
    let what = format!("data_at_odd_offset_of_{record}");
    has_pad.then(|| (what, without_pad(built, leaf, record)))
}

/// The smallest records there are, of which eight fit.
fn nine_threads() -> Vec<Record<Key>> {
    (16..=16 + MOST_RECORDS as u32).map(|parent| record_of_size(parent, LEAST_SIZE)).collect()
}

/// Records up to two bytes into the offset words, where a leaf can have as many.
fn into_the_offset_words(built: &Built, leaf: Member) -> Option<(String, Patch)> {
    let mut records = records(built, leaf);
    loop {
        let end = leaf_starts(built.format, &records)[records.len()];
        let words_at = built.format.node_size - 2 * (records.len() + 2);
        let size = (words_at + 2).checked_sub(end)?;
        if records.len() == MOST_RECORDS || size < LEAST_SIZE {
            return None;
        }
        // Another one only where this cannot be the last.
        records.push(record_of_size(u32::MAX, if size > MOST_SIZE { LEAST_SIZE } else { size }));
        if size <= MOST_SIZE {
            return Some(("record_into_offset_words".to_string(), relaid(built, leaf, &records)));
        }
    }
}

fn record_of_size(parent: u32, size: usize) -> Record<Key> {
    let data_type = match size {
        0..=84 => DIRECTORY_THREAD,
        85..=108 => DIRECTORY,
        _ => FILE,
    };
    let mut data = vec![0; data_size(data_type)];
    data[0] = data_type;
    let name = vec![b'n'; size - data.len() - 7];
    Record { key: Key { parent, name }, data }
}
