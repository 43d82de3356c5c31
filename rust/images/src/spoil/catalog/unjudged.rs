//! Changes in the records of a catalog that no rule judges.

use super::{ends, record_at};
use crate::catalog::entry::{DIRECTORY_THREAD, FILE_THREAD};
use crate::catalog::{Built, BEFORE_NAME};
use crate::spoil::family::Member;
use crate::spoil::harmless::flip;
use crate::spoil::Patch;
use crate::tree_key::TreeKey;

const RESERVED_AT: usize = 1;

pub fn changes(built: &Built, member: Member) -> Vec<(String, Vec<Patch>)> {
    let mut found = Vec::new();
    for record in ends(built, member) {
        let at = record_at(built, member, record);
        let reserved = flip(built, at + RESERVED_AT);
        found.push((format!("reserved_key_byte_of_{record}"), vec![reserved]));
        found.extend(past_the_name(built, member, record));
        found.extend(other_case(built, member, record));
        found.extend(other_thread(built, member, record));
    }
    found
}

/// The pad of a leaf key, or all the bytes that an index key has left.
fn past_the_name(built: &Built, member: Member, record: usize) -> Option<(String, Vec<Patch>)> {
    let key = member.key(built, record);
    let (what, size) = if member.is_leaf(built) {
        ("pad", key.size_in_leaf(built.format))
    } else {
        ("bytes_past_the_name", built.format.key_size())
    };
    let at = record_at(built, member, record);
    let changed: Vec<Patch> = (key.size()..size).map(|past| flip(built, at + past)).collect();
    (!changed.is_empty()).then(|| (format!("{what}_of_{record}"), changed))
}

/// The same key in other bytes, in a pointer or in a leaf.
fn other_case(built: &Built, member: Member, record: usize) -> Option<(String, Vec<Patch>)> {
    let twin = member.key(built, record).twin()?;
    let at = record_at(built, member, record) + BEFORE_NAME;
    Some((format!("other_case_of_{record}"), vec![Patch::bytes(at, &twin.name)]))
}

/// The thread of a directory as that of a file, and the other way round.
fn other_thread(built: &Built, member: Member, record: usize) -> Option<(String, Vec<Patch>)> {
    if !member.is_leaf(built) {
        return None;
    }
    let key = member.key(built, record);
    let at = record_at(built, member, record) + key.size_in_leaf(built.format);
    let other = match built.image[at] {
        DIRECTORY_THREAD => FILE_THREAD,
        FILE_THREAD => DIRECTORY_THREAD,
        _ => return None,
    };
    Some((format!("other_thread_of_{record}"), vec![Patch::byte(at, other)]))
}
