//! What is asked of an image whose edition and node size the caller names.
//!
//! Edition 0 is HFS, with nodes of 512 bytes; edition 1 is HFS Plus, with 512 to 32,768 in powers of
//! two. Anything else is refused as 25 before any other test, and nothing is touched.

use crate::edition::Edition;
use crate::hfs::Hfs;
use crate::hfs_plus::HfsPlus;
use crate::lookup::Lookup;
use crate::place::Place;
use crate::salvage::Salvage;
use crate::verdict::{Verdict, FORMAT};
use crate::work::bytes_for;

const HFS: u32 = 0;
const HFS_PLUS: u32 = 1;

/// The reader of one edition and node size.
struct Reader {
    check: fn(&[u8], &mut [u8]) -> Verdict,
    lookup: fn(&[u8], u32, u8, u32, &mut [u8]) -> Lookup,
    salvage: fn(&[u8], u32, u8, u32) -> Salvage,
}

impl Reader {
    fn of<E: Edition, const N: usize>() -> Reader {
        Reader {
            check: crate::check::check::<E, N>,
            lookup: crate::lookup::lookup::<E, N>,
            salvage: crate::salvage::salvage::<E, N>,
        }
    }

    fn named(edition: u32, node_size: u32) -> Option<Reader> {
        match (edition, node_size) {
            (HFS, 512) => Some(Reader::of::<Hfs, 512>()),
            (HFS_PLUS, 512) => Some(Reader::of::<HfsPlus, 512>()),
            (HFS_PLUS, 1_024) => Some(Reader::of::<HfsPlus, 1_024>()),
            (HFS_PLUS, 2_048) => Some(Reader::of::<HfsPlus, 2_048>()),
            (HFS_PLUS, 4_096) => Some(Reader::of::<HfsPlus, 4_096>()),
            (HFS_PLUS, 8_192) => Some(Reader::of::<HfsPlus, 8_192>()),
            (HFS_PLUS, 16_384) => Some(Reader::of::<HfsPlus, 16_384>()),
            (HFS_PLUS, 32_768) => Some(Reader::of::<HfsPlus, 32_768>()),
            _ => None,
        }
    }
}

/// How many working bytes a check or a lookup in an image of this length needs: one bit a node, and
/// none where the node size is 0.
pub const fn needed_work(node_size: u32, image_len: usize) -> usize {
    match image_len.checked_div(node_size as usize) {
        Some(node_count) => bytes_for(node_count),
        None => 0,
    }
}

/// What [`check`](crate::check) says of an HFS image, for the named edition and node size.
pub fn check(edition: u32, node_size: u32, image: &[u8], work: &mut [u8]) -> Verdict {
    match Reader::named(edition, node_size) {
        Some(reader) => (reader.check)(image, work),
        None => UNKNOWN_FORMAT,
    }
}

/// What [`lookup`](crate::lookup) says of an HFS image, for the named edition and node size.
///
/// A start block that is too high for a key of the edition is in no image, so it is absent.
pub fn lookup(
    edition: u32,
    node_size: u32,
    image: &[u8],
    file: u32,
    fork: u8,
    start: u32,
    work: &mut [u8],
) -> Lookup {
    match Reader::named(edition, node_size) {
        Some(reader) => (reader.lookup)(image, file, fork, start, work),
        None => crate::lookup::refused(UNKNOWN_FORMAT),
    }
}

/// What [`salvage`](crate::salvage) says of an HFS image, for the named edition and node size.
///
/// A start block that is too high for a key of the edition is in no image, so it is not seen.
pub fn salvage(
    edition: u32,
    node_size: u32,
    image: &[u8],
    file: u32,
    fork: u8,
    start: u32,
) -> Salvage {
    match Reader::named(edition, node_size) {
        Some(reader) => (reader.salvage)(image, file, fork, start),
        None => crate::salvage::refused(FORMAT),
    }
}

const UNKNOWN_FORMAT: Verdict = Verdict::new(FORMAT, Place::START);
