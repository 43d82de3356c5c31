//! What stands under each of many keys of a sound image.

use crate::check::{open, SoundImage};
use crate::descent::leaf_for;
use crate::hfs::{Hfs, NODE_SIZE};
use crate::key::is_lawful_packed;
use crate::layout::Layout;
use crate::node::range_in_image;
use crate::place::Place;
use crate::record::Keyed;
use crate::verdict::{Verdict, RESULT_ROW};

type Leaf = <Hfs as Layout>::Leaf;

// Both lie in the header node, so no record's data can start there.
const ABSENT: u32 = 0;
const UNLAWFUL: u32 = 1;

/// Looks every packed key up, after checking the whole image once.
///
/// If it answers 0, there is one result for each key: where in the image the 12 data bytes start, 0
/// if the key is absent, 1 if it is no packed key with a lawful fork byte. Results beyond the keys
/// stay, and any other answer leaves all of them as they were. It treats `work` as
/// [`check`](crate::check) does, and leaves it as it was where there are fewer results than keys.
pub fn lookup_many(image: &[u8], keys: &[u64], results: &mut [u32], work: &mut [u8]) -> Verdict {
    if results.len() < keys.len() {
        return Verdict::new(RESULT_ROW, Place::START);
    }
    match open::<Hfs, NODE_SIZE>(image, work) {
        Ok(sound) => {
            for (result, &asked) in results.iter_mut().zip(keys) {
                *result = result_of(&sound, asked);
            }
            Verdict::SOUND
        }
        Err(fault) => fault,
    }
}

fn result_of(sound: &SoundImage<NODE_SIZE>, asked: u64) -> u32 {
    if !is_lawful_packed(asked) {
        return UNLAWFUL;
    }
    // The longest image has 2 to the 25 bytes, so that every place in it fits.
    data_start(sound, asked).map_or(ABSENT, |start| start as u32)
}

/// Where in the image the data under a key start.
fn data_start(sound: &SoundImage<NODE_SIZE>, asked: u64) -> Option<usize> {
    let number = leaf_for(sound, asked)?;
    let records = Leaf::records(&sound.nodes[number]);
    let record = Hfs::find(records, asked)?;
    Some(range_in_image::<NODE_SIZE>(number, Leaf::data(records, record)).start)
}
