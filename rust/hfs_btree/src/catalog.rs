//! What is asked of the image of an HFS catalog file, whose records have a parent and a name as keys.
//!
//! Names are compared by the HFS character order, in which the two cases of a letter are one. A name of
//! more than 31 bytes is refused as 11 before any other test, and no working byte is touched.

mod data;
mod entry;

use crate::archive;
use crate::{looked_up, salvaged, verdict};

pub use crate::{needed_work, Answer, Place, SalvageAnswer, Verdict};
pub use data::Data;
pub use entry::{Directory, Entry, Extent, File, Fork, Thread};

/// The answer to a lookup, with its search path and the data of a found record, else none.
pub type Lookup = crate::Lookup<Data>;

/// The answer to a salvage, with the data of a seen record, else none.
pub type Salvage = crate::Salvage<Data>;

/// Is the image of a catalog sound, and if not, what is its first fault?
///
/// It treats `work` as [`crate::check`] does.
pub fn check(image: &[u8], work: &mut [u8]) -> Verdict {
    verdict(archive::catalog_check(image, work))
}

/// What stands under a parent and a name of a sound image? [`Data::entry`] says it.
///
/// The image is checked first: `work` is lent to that check, and is as it was if the name is refused.
pub fn lookup(image: &[u8], parent: u32, name: &[u8], work: &mut [u8]) -> Lookup {
    let (out, bytes) = archive::catalog_lookup(image, parent, name, work);
    let [out @ .., data_type, size] = out;
    looked_up(out, Data::read(data_type, size, bytes))
}

/// What can be seen under a parent and a name, in an image of any state? Seen proves nothing: a freed
/// node may hold an old record.
pub fn salvage(image: &[u8], parent: u32, name: &[u8]) -> Salvage {
    let (out, bytes) = archive::catalog_salvage(image, parent, name);
    let [out @ .., data_type, size] = out;
    salvaged(out, Data::read(data_type, size, bytes))
}
