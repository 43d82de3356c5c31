//! Which block of a volume holds a block of a file, by the catalog and the extents tree of HFS.

use crate::archive;

pub use crate::{needed_work, Place};

/// The image that an answer concerns.
#[derive(Clone, Copy, Debug, PartialEq, Eq)]
pub enum Image {
    Catalog,
    Extents,
}

/// Which of covered, the four ways of not being so, or refused a question came to.
#[derive(Clone, Copy, Debug, PartialEq, Eq)]
pub enum Answer {
    Covered,
    /// 12: the catalog does not have the key.
    Absent,
    /// 24: what it has under the key is a directory or a thread.
    NotAFile,
    /// 17: neither the file record nor an extents record covers the block.
    NotCovered,
    /// 18: the block that the covering pair gives is above the last that a volume can have, 65,535.
    AboveLastBlock,
    /// 11 for the asked key, or the number of the check of the image that is concerned.
    Refused {
        number: u32,
    },
}

impl From<u32> for Answer {
    fn from(number: u32) -> Answer {
        match number {
            0 => Answer::Covered,
            12 => Answer::Absent,
            17 => Answer::NotCovered,
            18 => Answer::AboveLastBlock,
            24 => Answer::NotAFile,
            _ => Answer::Refused { number },
        }
    }
}

impl Answer {
    /// The number by which the call says it.
    pub fn number(self) -> u32 {
        match self {
            Answer::Covered => 0,
            Answer::Absent => 12,
            Answer::NotCovered => 17,
            Answer::AboveLastBlock => 18,
            Answer::NotAFile => 24,
            Answer::Refused { number } => number,
        }
    }
}

/// The covering extent record: three pairs of first block and block count, big-endian.
#[derive(Clone, Copy, Debug, PartialEq, Eq)]
pub struct Part {
    /// The byte of the image where it starts.
    pub start: u32,
    /// 12, or 0 where there is none.
    pub len: u32,
    /// Its bytes, or zeros where there are none.
    pub bytes: [u8; 12],
}

impl Part {
    /// The empty part at the catalog's start, which every answer but covered has.
    pub const NONE: Part = Part { start: 0, len: 0, bytes: [0; 12] };
}

/// What a block of a file comes to.
#[derive(Clone, Copy, Debug, PartialEq, Eq)]
pub struct Mapping {
    pub answer: Answer,
    pub image: Image,
    /// Covered: where the covering record starts. Absent: the last node read of the catalog. Refused:
    /// that of the fault. Else 0, 0.
    pub place: Place,
    /// The block of the volume; 0 unless covered.
    pub volume_block: u32,
    /// Where in the image that is concerned the pairs stand, and what they are.
    pub part: Part,
}

/// Which block of the volume holds this block of a file's fork, 00 for data or FF for resource?
///
/// The fork byte and the length of the name are judged first, then the catalog is checked, then the
/// extents image, each with working bytes of its own, which are treated as [`crate::check`] does. Those of
/// the extents are as they were where the asked key or the catalog is at fault.
#[expect(clippy::too_many_arguments, reason = "both images, their working bytes and the question")]
pub fn block(
    catalog: &[u8],
    catalog_work: &mut [u8],
    extents: &[u8],
    extents_work: &mut [u8],
    parent: u32,
    name: &[u8],
    fork: u8,
    block: u16,
) -> Mapping {
    let (out, bytes) = archive::block(
        (catalog, catalog_work),
        (extents, extents_work),
        (parent, name),
        fork,
        block,
    );
    let [number, image, node, offset, volume_block, start, len] = out;
    let (answer, image, place) = (number.into(), image_of(image), Place { node, offset });
    Mapping { answer, image, place, volume_block, part: Part { start, len, bytes } }
}

fn image_of(image: u32) -> Image {
    match image {
        0 => Image::Catalog,
        1 => Image::Extents,
        _ => unreachable!("there are two images, and none is {image}"),
    }
}
