//! What stands under each of many keys of a sound image.

use crate::check::{open, SoundImage};
use crate::key::{is_lawful_packed, key, with_length, KEY_SIZE};
use crate::node::NODE_SIZE;
use crate::records::{child_of, records, start, INDEX_SIZE, LEAF_SIZE};
use crate::verdict::Verdict;

// Both lie in the header, where no record's data can start.
const ABSENT: u32 = 0;
const NO_KEY: u32 = 1;

/// Looks every packed key up, after the whole image has been checked once.
///
/// After 0 there is a result for each key: where in the image the 12 data bytes start, 0 if the key
/// is absent, 1 if the number is no key. Results beyond the keys stay, and any other answer leaves
/// all of them. `work` is treated as by [`check`](crate::check), and stays where there are fewer
/// results than keys.
pub fn lookup_many(image: &[u8], keys: &[u64], results: &mut [u32], work: &mut [u8]) -> Verdict {
    if results.len() < keys.len() {
        return Verdict::RESULT_ROW;
    }
    match open(image, work) {
        Ok(sound) => {
            for (result, &packed) in results.iter_mut().zip(keys) {
                *result = result_of(&sound, packed);
            }
            Verdict::SOUND
        }
        Err(fault) => fault,
    }
}

fn result_of(sound: &SoundImage, packed: u64) -> u32 {
    if !is_lawful_packed(packed) {
        return NO_KEY;
    }
    // The longest image has 2 to the 25 bytes, so that every place in it fits.
    data_start(sound, with_length(packed)).map_or(ABSENT, |start| start as u32)
}

fn data_start(sound: &SoundImage, asked: u64) -> Option<usize> {
    let index_levels = sound.header.depth.checked_sub(1)?;
    let mut number = sound.header.root as usize;
    for _ in 0..index_levels {
        let pointers = records::<INDEX_SIZE>(&sound.nodes[number]);
        number = child_of(&pointers[last_not_above(pointers, asked)?]) as usize;
    }
    let records = records::<LEAF_SIZE>(&sound.nodes[number]);
    let reached = last_not_above(records, asked)?;
    let data_at = number * NODE_SIZE + start::<LEAF_SIZE>(reached) + KEY_SIZE;
    (key(&records[reached]) == asked).then_some(data_at)
}

/// Where no keys are counted, the library's search is quicker than our halving.
fn last_not_above<const SIZE: usize>(records: &[[u8; SIZE]], asked: u64) -> Option<usize> {
    records.partition_point(|record| key(record) <= asked).checked_sub(1)
}
