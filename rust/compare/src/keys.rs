//! Which keys to ask an image for.

use images::node::RECORDS_AT;
use images::{Built, Edition, Format, Key, Rng};

/// An image is asked for as many keys as this many bytes have room for it, but not for fewer than
/// `LEAST_ASKED`.
const MOST_BYTES: usize = 16_000_000;
const LEAST_ASKED: usize = 30;

/// The lowest and the highest key of either edition, a key of the bench, another with the low bits of
/// its start block, and one with an unlawful fork byte.
pub fn always() -> [Key; 6] {
    [
        Key::new(0, 0x00, 0),
        Key::new(u32::MAX, 0xFF, 65_535),
        Key::new(u32::MAX, 0xFF, u32::MAX),
        Key::new(16, 0x00, 5),
        Key::new(16, 0x00, 65_541),
        Key::new(16, 0x01, 5),
    ]
}

/// Every leaf key of a built tree, pointer keys among them, with the lawful keys right beside it.
pub fn with_neighbours(built: &Built) -> Vec<Key> {
    let leaf_keys = built.records.iter().map(|record| record.key);
    let mut keys: Vec<Key> = leaf_keys.flat_map(|key| beside(built.format, key)).collect();
    keys.extend(always());
    keys.sort_unstable();
    keys.dedup();
    keys
}

fn beside(format: Format, key: Key) -> impl Iterator<Item = Key> {
    let rank = format.rank_of(key);
    let last = format.lawful_keys() - 1;
    let ranks = [rank.saturating_sub(1), rank, (rank + 1).min(last)];
    ranks.into_iter().map(move |rank| format.key_of_rank(rank))
}

/// What would be a key if a record stood at one of its usual places in any node, whatever is there.
pub fn at_record_places(format: Format, image: &[u8]) -> Vec<Key> {
    let mut keys = Vec::new();
    for node in image.chunks_exact(format.node_size) {
        for size in [format.leaf_record_size(), format.index_record_size()] {
            let records = node[RECORDS_AT..format.node_size - 8].chunks_exact(size);
            keys.extend(records.map(|record| key_of(format, record)).take(3));
        }
    }
    keys.sort_unstable();
    keys.dedup();
    keys
}

fn key_of(format: Format, record: &[u8]) -> Key {
    let long = |at: usize| {
        u32::from_be_bytes([record[at], record[at + 1], record[at + 2], record[at + 3]])
    };
    match format.edition {
        Edition::Hfs => Key::new(long(2), record[1], long(4) & 0xFFFF),
        Edition::HfsPlus => Key::new(long(4), record[2], long(8)),
    }
}

/// The packed number of a key of HFS.
pub fn packed(key: Key) -> u64 {
    hfs_btree::packed(key.file, key.fork, key.start as u16)
}

/// Some of the keys, one in eight with other high bits in its start block, and any key.
pub fn some(rng: &mut Rng, keys: &[Key], count: usize) -> Vec<Key> {
    let mut chosen: Vec<Key> = (0..count)
        .map(|_| {
            let key = keys[rng.index(keys.len())];
            let high_bits = if rng.index(8) == 0 { 1 << (16 + rng.index(16)) } else { 0 };
            Key { start: key.start ^ high_bits, ..key }
        })
        .collect();
    chosen.push(any(rng));
    chosen
}

/// Any lawful key, of either edition.
fn any(rng: &mut Rng) -> Key {
    let bits = rng.next_u64();
    let fork = if rng.flip() { 0x00 } else { 0xFF };
    let start = if rng.flip() { bits as u16 as u32 } else { bits as u32 };
    Key::new((bits >> 32) as u32, fork, start)
}

/// All the keys or, of a longer image, fewer of them.
pub fn affordable(rng: &mut Rng, keys: Vec<Key>, image: &[u8]) -> Vec<Key> {
    let most = (MOST_BYTES / image.len().max(1)).max(LEAST_ASKED);
    if keys.len() <= most {
        keys
    } else {
        some(rng, &keys, most)
    }
}
