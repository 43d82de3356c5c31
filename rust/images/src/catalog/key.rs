//! Keys of a catalog, in the HFS character order.

use super::character_order::{class_of, rank};
use super::entry::random_data;
use super::names::any_name;
use crate::format::Format;
use crate::node::put_what_fits;
use crate::rng::Rng;
use crate::tree_key::TreeKey;
use std::cmp::Ordering;

/// The longest name of a key.
pub const MOST_NAME: usize = 31;

/// The bytes of a key before its name: length, reserved byte, parent and name length.
pub const BEFORE_NAME: usize = 7;

/// A key of a catalog record; keys that weigh the same are equal.
#[derive(Clone, Debug)]
pub struct Key {
    pub parent: u32,
    pub name: Vec<u8>,
}

impl Key {
    pub fn new(parent: u32, name: &[u8]) -> Key {
        Key { parent, name: name.to_vec() }
    }

    /// The bytes of a key with its name and no pad.
    pub fn size(&self) -> usize {
        BEFORE_NAME + self.name.len()
    }

    /// The next key up that there can be, unless the name is as long as names are.
    pub fn next(&self) -> Option<Key> {
        let has_room = self.name.len() < MOST_NAME;
        has_room.then(|| Key { name: [&self.name[..], &[0x00]].concat(), ..self.clone() })
    }

    /// The key without the last byte of its name, which is below it.
    pub fn prefix(&self) -> Option<Key> {
        let (_, name) = self.name.split_last()?;
        Some(Key::new(self.parent, name))
    }

    /// The same key in as many other bytes as weigh the same.
    pub fn twin(&self) -> Option<Key> {
        let other = |&byte: &u8| class_of(byte).find(|&other| other != byte).unwrap_or(byte);
        let name: Vec<u8> = self.name.iter().map(other).collect();
        (name != self.name).then_some(Key { name, ..*self })
    }

    /// The key with the last byte of its name replaced.
    pub fn with_last(&self, byte: u8) -> Option<Key> {
        let mut key = self.prefix()?;
        key.name.push(byte);
        Some(key)
    }

    /// Parent, name length and name, as they stand after the reserved byte.
    pub fn after_reserved(&self) -> Vec<u8> {
        let length = [self.name.len() as u8];
        [&self.parent.to_be_bytes()[..], &length, &self.name].concat()
    }

    fn put(&self, node: &mut [u8], at: usize, length: usize) {
        put_what_fits(node, at, &[length as u8]);
        put_what_fits(node, at + 2, &self.after_reserved());
    }
}

impl TreeKey for Key {
    fn size_in_leaf(&self, _: Format) -> usize {
        // Data start on an even offset, and so does every record.
        self.size().next_multiple_of(2)
    }

    fn put_in_leaf(&self, _: Format, node: &mut [u8], at: usize) {
        self.put(node, at, self.size() - 1);
    }

    fn put_in_index(&self, format: Format, node: &mut [u8], at: usize) {
        self.put(node, at, format.key_length().into());
    }

    fn any(rng: &mut Rng, _: Format) -> Key {
        let parent = [rng.index(20) as u32, rng.next_u64() as u32][rng.index(2)];
        Key { parent, name: any_name(rng, MOST_NAME) }
    }

    fn any_data(rng: &mut Rng, _: Format) -> Vec<u8> {
        let data_type = rng.between(1, 4) as u8;
        random_data(rng, data_type)
    }
}

impl Ord for Key {
    fn cmp(&self, other: &Key) -> Ordering {
        let ranks = |key: &Key| key.name.clone().into_iter().map(rank);
        self.parent.cmp(&other.parent).then_with(|| ranks(self).cmp(ranks(other)))
    }
}

impl PartialOrd for Key {
    fn partial_cmp(&self, other: &Key) -> Option<Ordering> {
        Some(self.cmp(other))
    }
}

impl PartialEq for Key {
    fn eq(&self, other: &Key) -> bool {
        self.cmp(other).is_eq()
    }
}

impl Eq for Key {}
