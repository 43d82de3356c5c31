//! Which keys to ask a catalog for.

use images::catalog::{any_name, other_case, Built, Key, MOST_NAME};
use images::Rng;

/// A catalog is asked for as many keys as this many bytes have room for it, but not for fewer than
/// `LEAST_ASKED`.
const MOST_BYTES: usize = 4_000_000;
const LEAST_ASKED: usize = 20;

/// The lowest and the highest key, keys of the bench, one in another case, and names that are as long
/// as they may be and longer.
pub fn always() -> [Key; 9] {
    [
        Key::new(0, b""),
        Key::new(u32::MAX, &[0xFF; MOST_NAME]),
        Key::new(1, b"Cartridge"),
        Key::new(2, b""),
        Key::new(2, b"Heights"),
        Key::new(2, b"hEIGHTS"),
        Key::new(2, &[b'n'; MOST_NAME + 1]),
        Key::new(2, &[0x00; 255]),
        // A length that fits in a byte only without its high bits.
        Key::new(2, &[b'n'; 256 + 7]),
    ]
}

/// Every leaf key of a built catalog, pointer keys among them, with keys right beside it.
pub fn with_neighbours(built: &Built) -> Vec<Key> {
    let leaf_keys = built.records.iter().map(|record| &record.key);
    let mut keys: Vec<Key> = leaf_keys.flat_map(beside).collect();
    keys.extend(always());
    keys
}

/// The keys of some records or keys right beside them, of a catalog with too many to list.
pub fn near_some(rng: &mut Rng, built: &Built, count: usize) -> Vec<Key> {
    let records = &built.records;
    let near: Vec<Key> =
        (0..count).flat_map(|_| beside(&records[rng.index(records.len())].key)).collect();
    some(rng, &near, count)
}

/// A key, in its own bytes and others of the same weights, with the next one up, those that it begins
/// or that begin it, and others near it.
fn beside(key: &Key) -> Vec<Key> {
    let last = key.name.last().copied().unwrap_or(0);
    let parents = [key.parent.wrapping_add(1), key.parent.wrapping_sub(1), key.parent ^ 1 << 31];
    let near = [
        key.twin(),
        key.next(),
        key.prefix(),
        key.with_last(last.wrapping_add(1)),
        key.with_last(last.wrapping_sub(1)),
    ];
    let elsewhere = parents.map(|parent| Key { parent, ..key.clone() });
    [key.clone()].into_iter().chain(near.into_iter().flatten()).chain(elsewhere).collect()
}

/// What would be a key if a record stood where the offset words of any node say, whatever is there.
pub fn at_record_places(image: &[u8]) -> Vec<Key> {
    let mut keys = Vec::new();
    for node in image.chunks_exact(512) {
        let words = node.rchunks_exact(2).map(|word| u16::from_be_bytes([word[0], word[1]]));
        keys.extend(words.take(4).filter_map(|at| key_at(node, at.into())));
    }
    keys
}

fn key_at(node: &[u8], at: usize) -> Option<Key> {
    let &[_, _, a, b, c, d, length] = node.get(at..at + 7)? else {
        return None;
    };
    let length = usize::from(length) % (MOST_NAME + 1);
    let name = node.get(at + 7..at + 7 + length)?;
    Some(Key::new(u32::from_be_bytes([a, b, c, d]), name))
}

/// Some of the keys, one in four changed a little, and any key.
pub fn some(rng: &mut Rng, keys: &[Key], count: usize) -> Vec<Key> {
    let mut chosen: Vec<Key> = (0..count)
        .map(|_| {
            let key = &keys[rng.index(keys.len())];
            if rng.index(4) == 0 {
                changed(rng, key)
            } else {
                key.clone()
            }
        })
        .collect();
    chosen.push(any(rng));
    chosen
}

/// The key in another case, with another byte in its name, or with a name that is longer, as it may
/// be too long.
fn changed(rng: &mut Rng, key: &Key) -> Key {
    let mut name = key.name.clone();
    match rng.index(3) {
        0 => name = other_case(rng, &name),
        1 if !name.is_empty() => {
            let at = rng.index(name.len());
            name[at] = rng.next_u64() as u8;
        }
        _ => name.extend(any_name(rng, MOST_NAME)),
    }
    Key { name, ..*key }
}

fn any(rng: &mut Rng) -> Key {
    let parent = [rng.index(20) as u32, rng.next_u64() as u32][rng.index(2)];
    Key { parent, name: any_name(rng, MOST_NAME + 1) }
}

/// All the keys or, of a longer image, fewer of them.
pub fn affordable(rng: &mut Rng, keys: Vec<Key>, image: &[u8]) -> Vec<Key> {
    let most = (MOST_BYTES / image.len().max(1)).max(LEAST_ASKED);
    if keys.len() <= most {
        keys
    } else {
        some(rng, &keys, most)
    }
}
