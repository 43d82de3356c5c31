//! The proved reader of extents overflow files, of HFS and HFS Plus, and of HFS catalog files, and the
//! proved writer of fresh extents trees of HFS, as safe functions on any bytes.
//!
//! An image need not have been checked before: `lookup` and `lookup_many` check it whole, and `salvage`
//! trusts no node. `check` and the lookups work in bytes that the caller lends, one bit for each node
//! of the image; [`needed_work`] says how many that is.
//!
//! The functions here read extents of HFS; those in [`editions`] read extents of HFS and HFS Plus, and
//! those in [`catalog`] the catalog of HFS. [`block()`] reads the catalog and the extents of a volume
//! together. [`write_tree`] is the one function that writes an image.

mod archive;
pub mod block;
pub mod catalog;
pub mod editions;

pub use block::block;

/// How many working bytes a check of an image of this length, or a lookup in it, needs.
pub const fn needed_work(image_len: usize) -> usize {
    (image_len / 512).div_ceil(8)
}

/// A byte of an image: its node, and its offset there.
#[derive(Clone, Copy, Debug, PartialEq, Eq)]
pub struct Place {
    pub node: u32,
    pub offset: u32,
}

/// The packed number of a key, by which [`lookup_many`] is asked; numeric order is key order.
pub const fn packed(file: u32, fork: u8, start: u16) -> u64 {
    (file as u64) << 24 | (fork as u64) << 16 | start as u64
}

/// The first fault by the order of tests, or 0 at node 0, offset 0 if there is none.
#[derive(Clone, Copy, Debug, PartialEq, Eq)]
pub struct Verdict {
    pub number: u32,
    pub place: Place,
}

/// Which of found, absent or refused a lookup came to.
#[derive(Clone, Copy, Debug, PartialEq, Eq)]
pub enum Answer {
    /// Where the record starts.
    Found {
        place: Place,
    },
    /// The last node read, 0 where there is none.
    Absent {
        node: u32,
    },
    Refused {
        number: u32,
        place: Place,
    },
}

/// The answer to a lookup, with its search path and the record's data.
#[derive(Clone, Copy, Debug, PartialEq, Eq)]
pub struct Lookup<Data = [u8; 12]> {
    pub answer: Answer,
    /// How many keys were compared by halving, in all nodes of the path; 0 if refused.
    pub compared: u32,
    /// Nodes read from the root down; unused places are 0.
    pub path: [u32; 8],
    pub path_len: u32,
    /// The data of a found record, else zeros; in [`editions`] and [`catalog`], else none.
    pub data: Data,
}

/// What a result of [`lookup_many`] says of its key.
#[derive(Clone, Copy, Debug, PartialEq, Eq)]
pub enum KeyResult {
    /// The byte of the image where the record's 12 data bytes start.
    Found {
        data_at: usize,
    },
    Absent,
    /// The number is no key: its fork byte is neither 00 nor FF, or it is 2 to the 56 or more.
    NoKey,
}

impl From<u32> for KeyResult {
    fn from(result: u32) -> KeyResult {
        match result {
            0 => KeyResult::Absent,
            1 => KeyResult::NoKey,
            place => KeyResult::Found { data_at: place as usize },
        }
    }
}

/// Which of seen, not seen or refused a salvage came to.
#[derive(Clone, Copy, Debug, PartialEq, Eq)]
pub enum SalvageAnswer {
    /// Where the record starts.
    Seen {
        place: Place,
    },
    NotSeen,
    Refused {
        number: u32,
        place: Place,
    },
}

/// The answer to a salvage, with the record's data.
#[derive(Clone, Copy, Debug, PartialEq, Eq)]
pub struct Salvage<Data = [u8; 12]> {
    pub answer: SalvageAnswer,
    /// The data of a seen record, else zeros; in [`editions`] and [`catalog`], else none.
    pub data: Data,
}

const FOUND: u32 = 0;
const ABSENT: u32 = 12;
const SEEN: u32 = 13;
const NOT_SEEN: u32 = 14;

/// Is the image sound, and if not, what is its first fault?
///
/// With fewer than the needed bytes the answer is 16. After 1 and 16 `work` is as it was. After
/// another fault the needed bytes are zero. Of a sound image they have the bits of the nodes in use
/// set and no others, the top bit of a byte first. Bytes beyond the needed ones stay.
pub fn check(image: &[u8], work: &mut [u8]) -> Verdict {
    verdict(archive::check(image, work))
}

/// What stands under a key of a sound image?
///
/// The image is checked first: `work` is lent to that check, and is as it was if the fork byte is
/// refused.
pub fn lookup(image: &[u8], file: u32, fork: u8, start: u16, work: &mut [u8]) -> Lookup {
    let (out, data) = archive::lookup(image, file, fork, start, work);
    looked_up(out, data)
}

/// What stands under each of many keys of a sound image, by their [`packed`] numbers?
///
/// The image is checked once: `work` is lent to that check. If the number answered is 0, there is a
/// result for each key, and `KeyResult::from` says what it says; results beyond the keys stay. With
/// any other number no result is written. It is 15 if there are fewer results than keys, which is
/// tested first and leaves `work` as it was, and else the check's own.
pub fn lookup_many(image: &[u8], keys: &[u64], results: &mut [u32], work: &mut [u8]) -> Verdict {
    verdict(archive::lookup_many(image, keys, results, work))
}

/// What can be seen under a key, in an image of any state? Seen proves nothing: a freed node may
/// hold an old record.
pub fn salvage(image: &[u8], file: u32, fork: u8, start: u16) -> Salvage {
    let (out, data) = archive::salvage(image, file, fork, start);
    salvaged(out, data)
}

/// Lays a fresh tree of HFS down: an image as long as the target, whose leaf records are those of the row.
///
/// A record has 20 bytes: a key of eight, length byte first, and 12 of data. The number is 0 if the image
/// is written, every byte of the target. Else it is a refusal, and the target is as it was: 1 if that is
/// not 1 to 65,536 whole nodes of 512 bytes; 19 if the row is not of whole records, or has a length byte
/// other than 07, a fork byte other than 00 or FF, or keys that do not strictly ascend; 20 if the target
/// has fewer nodes than it takes. The place is always node 0, offset 0.
///
/// The image is sound, and no sound tree with these records has fewer nodes. The header comes first, then
/// as many map nodes as the target needs, then the leaves with 22 records each and the last with the rest,
/// then each level of index nodes, of 35 likewise, the root last. All other bytes are zero.
pub fn write_tree(row: &[u8], target: &mut [u8]) -> Verdict {
    verdict(archive::write_tree(row, target))
}

/// What the numbers of a check, of a call for many keys or of the writer say.
fn verdict([number, node, offset]: [u32; 3]) -> Verdict {
    Verdict { number, place: Place { node, offset } }
}

/// What the numbers of a lookup say.
fn looked_up<Data>(out: [u32; 13], data: Data) -> Lookup<Data> {
    let [number, node, offset, compared, path_len, path @ ..] = out;
    let place = Place { node, offset };
    let answer = match number {
        FOUND => Answer::Found { place },
        ABSENT => Answer::Absent { node },
        _ => Answer::Refused { number, place },
    };
    Lookup { answer, compared, path, path_len, data }
}

/// What the numbers of a salvage say.
fn salvaged<Data>([number, node, offset]: [u32; 3], data: Data) -> Salvage<Data> {
    let place = Place { node, offset };
    let answer = match number {
        SEEN => SalvageAnswer::Seen { place },
        NOT_SEEN => SalvageAnswer::NotSeen,
        _ => SalvageAnswer::Refused { number, place },
    };
    Salvage { answer, data }
}
