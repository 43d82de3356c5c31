//! What is asked of the image of a catalog file, an HFS tree whose keys are a parent and a name.
//!
//! Nodes have 512 bytes. All that the catalog shares with the extents tree is the same code.

mod entry;
mod key;
mod layout;
mod leaf;
mod leaves;
mod weights;

use crate::layout::Asked;
use crate::lookup::{look_up, Lookup};
use crate::place::Place;
use crate::salvage::{salvage_asked, Salvage};
use crate::verdict::{Verdict, ASKED_KEY};
use layout::Catalog;

pub use entry::{Directory, Entry, Extent, File, Fork, Thread};
pub use key::Key;
pub use leaves::{leaf_records, LeafRecord};
pub use weights::WEIGHTS;

const NODE_SIZE: usize = 512;

/// Answers 0 at the start of the image if it is sound, else the first fault and its place.
///
/// It treats `work` as [`check`](crate::check) of an extents image does.
pub fn check(image: &[u8], work: &mut [u8]) -> Verdict {
    crate::check::check::<Catalog, NODE_SIZE>(image, work)
}

/// Looks a parent and a name up, after checking the length of the name and the whole image.
///
/// It treats `work` as [`check`] does, and leaves it as it was where the name is too long.
pub fn lookup(image: &[u8], parent: u32, name: &[u8], work: &mut [u8]) -> Lookup {
    match ask(parent, name) {
        Some(asked) => look_up::<Catalog, NODE_SIZE>(image, asked, work),
        None => crate::lookup::refused(Verdict::new(ASKED_KEY, Place::START)),
    }
}

/// Finds the first record with the key in any node from 1 up that looks like a leaf.
pub fn salvage(image: &[u8], parent: u32, name: &[u8]) -> Salvage {
    match ask(parent, name) {
        Some(asked) => salvage_asked::<Catalog, NODE_SIZE>(image, asked),
        None => crate::salvage::refused(ASKED_KEY),
    }
}

/// None if the name is too long for any key.
fn ask(parent: u32, name: &[u8]) -> Option<Asked<Key<'_>>> {
    let nearest = Key { parent, name };
    (name.len() <= key::MOST_NAME).then_some(Asked { nearest, is_exact: true })
}
