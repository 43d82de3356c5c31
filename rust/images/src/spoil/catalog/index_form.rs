//! Number 5: records that no index node may have.

use super::{ends, record_at};
use crate::catalog::{Built, Key, MOST_NAME};
use crate::node::{write_index, Descriptor, Pointer};
use crate::spoil::family::Member;
use crate::spoil::Patch;

const MOST_RECORDS: u32 = 11;

pub fn faults(built: &Built, member: Member) -> Vec<(String, Patch)> {
    let mut found = Vec::new();
    for record in ends(built, member) {
        found.extend(wrong_lengths(built, member, record));
    }
    found.push(("twelve_records".to_string(), twelve_records(built, member)));
    found
}

/// Key lengths other than 37, and names that are too long.
fn wrong_lengths(built: &Built, member: Member, record: usize) -> Vec<(String, Patch)> {
    let at = record_at(built, member, record);
    let name = member.key(built, record).name.len();
    let mut wrong = vec![
        ("key_length_36", Patch::byte(at, 36)),
        ("key_length_38", Patch::byte(at, 38)),
        ("name_length_32", Patch::byte(at + 6, 32)),
        ("name_length_ff", Patch::byte(at + 6, 0xFF)),
    ];
    if name < MOST_NAME {
        wrong.push(("key_length_as_in_a_leaf", Patch::byte(at, 6 + name as u8)));
    }
    wrong.into_iter().map(|(what, patch)| (format!("{what}_of_{record}"), patch)).collect()
}

/// One more than fit, the last of them in the offset words.
fn twelve_records(built: &Built, member: Member) -> Patch {
    let pointers: Vec<Pointer<Key>> = (0..=MOST_RECORDS)
        .map(|child| Pointer { key: Key::new(child, b""), child: 1 + child })
        .collect();
    let descriptor = Descriptor { forward: 0, back: 0, level: built.level_byte(member.level) };
    let mut node = vec![0; built.format.node_size];
    write_index(built.format, &mut node, descriptor, &pointers);
    Patch::bytes(member.at(built), &node)
}
