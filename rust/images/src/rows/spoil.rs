//! Rows that are not of whole records with lawful and strictly ascending keys, each of which is 19.

use super::{Row, RECORD_SIZE};
use crate::key::Key;
use crate::rng::Rng;
use crate::spoil::Patch;

const LENGTH_BYTES: [u8; 7] = [0x00, 0x06, 0x08, 0x0A, 0x25, 0x87, 0xFF];
const FORK_BYTES: [u8; 6] = [0x01, 0x02, 0x7F, 0x80, 0xFE, 0x0F];

/// Two keys of which the second is not above the first, though a wrong comparison may say so: equal ones;
/// lower by the file, the fork or the start block alone or in spite of what comes after it, and lower with
/// a higher last byte.
const NOT_ASCENDING: [[Key; 2]; 9] = [
    [Key::new(16, 0x00, 5), Key::new(16, 0x00, 5)],
    [Key::new(0, 0x00, 0), Key::new(0, 0x00, 0)],
    [Key::new(u32::MAX, 0xFF, 65_535), Key::new(u32::MAX, 0xFF, 65_535)],
    [Key::new(16, 0x00, 5), Key::new(16, 0x00, 4)],
    [Key::new(16, 0x00, 0x0100), Key::new(16, 0x00, 0x00FF)],
    [Key::new(16, 0xFF, 0), Key::new(16, 0x00, 65_535)],
    [Key::new(17, 0x00, 0), Key::new(16, 0xFF, 65_535)],
    [Key::new(0x0001_0000, 0xFF, 1), Key::new(0x0000_FFFF, 0xFF, 2)],
    [Key::new(0x8000_0000, 0x00, 0), Key::new(0x7FFF_FFFF, 0x00, 0)],
];

/// Changes to a row after which it is 19.
#[derive(Clone, Debug)]
pub struct RowSpoiling {
    pub what: String,
    patches: Vec<Patch>,
}

impl RowSpoiling {
    pub const NUMBER: u32 = 19;

    /// The bytes of the row after the changes.
    pub fn applied(&self, row: &Row) -> Vec<u8> {
        let mut bytes = row.bytes.clone();
        for patch in &self.patches {
            patch.apply(&mut bytes);
        }
        bytes
    }

    fn new(what: String, patches: Vec<Patch>) -> RowSpoiling {
        RowSpoiling { what, patches }
    }
}

/// Lengths between whole records, and the other faults in the first two records, the last and two others.
pub fn spoilings(rng: &mut Rng, row: &Row) -> Vec<RowSpoiling> {
    let mut found = broken_lengths(row);
    if row.records.is_empty() {
        return found;
    }
    let count = row.records.len();
    let mut records = vec![0, 1.min(count - 1), count / 2, rng.index(count), count - 1];
    records.sort_unstable();
    records.dedup();
    for record in records {
        found.extend(wrong_bytes(rng, record));
        if record > 0 {
            found.extend(not_ascending(row, record));
        }
    }
    found
}

/// Every length between that of the row and the next whole one, above and below.
fn broken_lengths(row: &Row) -> Vec<RowSpoiling> {
    let len = row.bytes.len();
    (1..RECORD_SIZE)
        .flat_map(|bytes| [len.checked_sub(bytes), Some(len + bytes)])
        .flatten()
        .map(|len| RowSpoiling::new(format!("length_{len}"), vec![Patch::Resize(len)]))
        .collect()
}

fn wrong_bytes(rng: &mut Rng, record: usize) -> Vec<RowSpoiling> {
    let at = record * RECORD_SIZE;
    let any_fork = rng.between(0x01, 0xFE) as u8;
    let spoiling = |what: &str, at: usize, byte: u8| {
        let what = format!("{what}_{byte:02X}_in_record_{record}");
        RowSpoiling::new(what, vec![Patch::byte(at, byte)])
    };
    let lengths = LENGTH_BYTES.into_iter().map(|byte| spoiling("length_byte", at, byte));
    let forks = FORK_BYTES.into_iter().chain([any_fork]);
    lengths.chain(forks.map(|byte| spoiling("fork_byte", at + 1, byte))).collect()
}

/// The key of a record and that of the one before it: the same, the other way round, or other ones.
fn not_ascending(row: &Row, record: usize) -> Vec<RowSpoiling> {
    let (before, key) = (row.records[record - 1].key, row.records[record].key);
    let of_row = [[before, before], [key, key], [key, before]];
    let spoiling = |pair: [Key; 2]| {
        let [before, key] = pair;
        let what = format!("keys_{before:?}_and_{key:?}_in_record_{record}");
        let at = record * RECORD_SIZE;
        let put = |at, key: Key| Patch::bytes(at, &key.bytes());
        RowSpoiling::new(what, vec![put(at - RECORD_SIZE, before), put(at, key)])
    };
    of_row.into_iter().chain(NOT_ASCENDING).map(spoiling).collect()
}
