//! Names and the keys that have them: prefixes of each other, case twins, and any bytes.

use super::character_order::class_of;
use super::key::Key;
use crate::rng::Rng;

/// Few letters, so that names begin others and come again in other cases.
const FEW: [u8; 4] = *b"aAbB";

/// Most names in one directory.
const MOST_IN_DIRECTORY: u64 = 12;

/// So many keys or a few more, ascending, with names up to the longest.
pub fn ascending_keys(rng: &mut Rng, count: usize, longest: usize) -> Vec<Key> {
    let mut keys: Vec<Key> = Vec::new();
    let mut parent = rng.index(3) as u32;
    let mut names: Vec<Vec<u8>> = Vec::new();
    while keys.len() < count {
        // The names of the directory before come again, as they may in another case.
        names = names_in_directory(rng, &names, longest);
        let mut here: Vec<Key> = names.iter().map(|name| Key::new(parent, name)).collect();
        here.sort();
        here.dedup();
        keys.extend(here);
        let keys_left = count.saturating_sub(keys.len());
        parent = parent.saturating_add(gap(rng, parent, keys_left));
    }
    keys
}

/// How far off the next parent is: near, an even share of what there is, or half of it; every key that
/// is left may need a parent of its own.
fn gap(rng: &mut Rng, parent: u32, keys_left: usize) -> u32 {
    let room = u64::from(u32::MAX - parent).saturating_sub(keys_left as u64);
    let share = room / (keys_left as u64 + 1);
    let far = if rng.flip() { room / 2 } else { share };
    let gaps = [1, 1, 2, 40, far];
    let gap = gaps[rng.index(gaps.len())].clamp(1, room.max(1));
    rng.between(1, gap) as u32
}

fn names_in_directory(rng: &mut Rng, before: &[Vec<u8>], longest: usize) -> Vec<Vec<u8>> {
    let count = rng.between(1, MOST_IN_DIRECTORY);
    let mut names: Vec<Vec<u8>> = vec![any_name(rng, longest)];
    for _ in 1..count {
        let here = &names[rng.index(names.len())];
        let name = match rng.index(4) {
            0 if !before.is_empty() => {
                let there = &before[rng.index(before.len())];
                other_case(rng, there)
            }
            1 => longer(rng, here, longest),
            2 => here.iter().take(rng.index(8)).copied().collect(),
            _ => any_name(rng, longest),
        };
        names.push(name);
    }
    names
}

/// A name of up to so many bytes, as often as not of few letters or of one length or the other end.
pub fn any_name(rng: &mut Rng, longest: usize) -> Vec<u8> {
    let lengths = [0, longest.min(1), longest, rng.index(longest + 1), rng.index(longest + 1)];
    let length = lengths[rng.index(lengths.len())];
    let of_few = rng.flip();
    (0..length).map(|_| if of_few { FEW[rng.index(4)] } else { rng.next_u64() as u8 }).collect()
}

/// The name in other bytes of the same weights, here and there.
pub fn other_case(rng: &mut Rng, name: &[u8]) -> Vec<u8> {
    let other = |&byte: &u8| {
        let class: Vec<u8> = class_of(byte).collect();
        class[rng.index(class.len())]
    };
    name.iter().map(other).collect()
}

fn longer(rng: &mut Rng, name: &[u8], longest: usize) -> Vec<u8> {
    let more = any_name(rng, longest - name.len());
    [name, &more].concat()
}
