//! What is asked of an image whose edition and node size the caller names.
//!
//! HFS has nodes of 512 bytes, HFS Plus of 512 to 32,768 in powers of two. Anything else is refused as
//! 25 before any other test, and no working byte is touched.

mod data;

use crate::archive;
use crate::{looked_up, salvaged, verdict, FOUND, SEEN};

pub use crate::{Answer, Place, SalvageAnswer, Verdict};
pub use data::Data;

/// The answer to a lookup, with its search path and the data of a found record, else none.
pub type Lookup = crate::Lookup<Data>;

/// The answer to a salvage, with the data of a seen record, else none.
pub type Salvage = crate::Salvage<Data>;

/// The editions there are. The functions here take any other number too, which is refused as 25.
#[derive(Clone, Copy, Debug, PartialEq, Eq)]
pub enum Edition {
    Hfs,
    HfsPlus,
}

impl From<Edition> for u32 {
    fn from(edition: Edition) -> u32 {
        match edition {
            Edition::Hfs => 0,
            Edition::HfsPlus => 1,
        }
    }
}

/// How many working bytes a check of an image of this length, or a lookup in it, needs; none where
/// the node size is 0.
pub const fn needed_work(node_size: u32, image_len: usize) -> usize {
    match image_len.checked_div(node_size as usize) {
        Some(node_count) => node_count.div_ceil(8),
        None => 0,
    }
}

/// Is the image sound, and if not, what is its first fault?
///
/// It treats `work` as [`crate::check`] does, and leaves it as it was after 25.
pub fn check(edition: impl Into<u32>, node_size: u32, image: &[u8], work: &mut [u8]) -> Verdict {
    verdict(archive::extents_check(edition.into(), node_size, image, work))
}

/// What stands under a key of a sound image?
///
/// The image is checked first: `work` is lent to that check, and is as it was after 25 and 11. A start
/// block above 65,535 is in no HFS image, so it is absent.
pub fn lookup(
    edition: impl Into<u32>,
    node_size: u32,
    image: &[u8],
    file: u32,
    fork: u8,
    start: u32,
    work: &mut [u8],
) -> Lookup {
    let edition = edition.into();
    let (out, bytes) = archive::extents_lookup(edition, node_size, image, file, fork, start, work);
    looked_up(out, Data::read(edition, out[0] == FOUND, bytes))
}

/// What can be seen under a key, in an image of any state? Seen proves nothing: a freed node may
/// hold an old record.
///
/// A start block above 65,535 is in no HFS image, so it is not seen.
pub fn salvage(
    edition: impl Into<u32>,
    node_size: u32,
    image: &[u8],
    file: u32,
    fork: u8,
    start: u32,
) -> Salvage {
    let edition = edition.into();
    let (out, bytes) = archive::extents_salvage(edition, node_size, image, file, fork, start);
    salvaged(out, Data::read(edition, out[0] == SEEN, bytes))
}
