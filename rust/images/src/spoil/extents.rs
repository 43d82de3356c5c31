//! Changes of the keys of an extents tree.

use super::family::Member;
use super::harmless::flip;
use super::keys::KeyFaults;
use super::order::{self, record_at};
use super::{Patch, Spoiling};
use crate::build::Built;
use crate::format::Edition;
use crate::key::Key;

impl KeyFaults for Key {
    fn unlawful(built: &Built, member: Member) -> Vec<(String, Patch)> {
        key_faults(built, member)
    }

    fn misplaced(built: &Built) -> Vec<Spoiling> {
        order::spoilings(built)
    }

    fn unjudged(built: &Built, member: Member) -> Vec<(String, Vec<Patch>)> {
        pads(built, member)
    }
}

/// Faults in the length and the fork byte of the first and the last key.
fn key_faults(built: &Built, member: Member) -> Vec<(String, Patch)> {
    let last = member.record_count(built) - 1;
    let mut found = Vec::new();
    for record in if last == 0 { vec![0] } else { vec![0, last] } {
        let at = record_at(built, member, record);
        let fork_at = at + built.format.fork_at();
        found.extend(wrong_lengths(built, at, record));
        found.push((format!("fork_01_of_{record}"), Patch::byte(fork_at, 0x01)));
        found.push((format!("fork_fe_of_{record}"), Patch::byte(fork_at, 0xFE)));
        if built.format.pad_at().is_some() {
            let swapped = [0x01, member.key(built, record).fork];
            let what = format!("fork_and_pad_swapped_of_{record}");
            found.push((what, Patch::bytes(fork_at, &swapped)));
        }
    }
    found
}

/// Wrong lengths of the key that starts at `at`, in one byte or two.
fn wrong_lengths(built: &Built, at: usize, record: usize) -> Vec<(String, Patch)> {
    match built.format.edition {
        Edition::Hfs => vec![
            (format!("key_length_6_of_{record}"), Patch::byte(at, 6)),
            (format!("key_length_8_of_{record}"), Patch::byte(at, 8)),
        ],
        Edition::HfsPlus => vec![
            (format!("key_length_7_of_{record}"), Patch::word(at, 7)),
            (format!("key_length_11_of_{record}"), Patch::word(at, 11)),
            (format!("key_length_high_byte_of_{record}"), Patch::byte(at, 1)),
            (format!("key_length_in_one_byte_of_{record}"), Patch::word(at, 0x0A00)),
        ],
    }
}

/// The pads of the first and the last key.
fn pads(built: &Built, member: Member) -> Vec<(String, Vec<Patch>)> {
    let Some(pad_at) = built.format.pad_at() else {
        return Vec::new();
    };
    let last = member.record_count(built) - 1;
    let records = if last == 0 { vec![0] } else { vec![0, last] };
    let pad = |record| {
        let at = record_at(built, member, record) + pad_at;
        (format!("pad_of_{record}"), vec![flip(built, at)])
    };
    records.into_iter().map(pad).collect()
}
