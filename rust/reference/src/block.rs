//! From a block of a file to the block of the volume, by the catalog and the extents tree of HFS.

use crate::catalog::{self, Entry, Extent, File};
use crate::check::{open, SoundImage};
use crate::hfs::{Hfs, NODE_SIZE};
use crate::key::{is_lawful_fork, Key};
use crate::lookup::{Answer, Lookup};
use crate::nearest::last_not_above;
use crate::node::be16;
use crate::place::Place;
use crate::verdict::{Verdict, ABSENT, ASKED_KEY, NOT_A_FILE, NOT_COVERED, VOLUME_BLOCK};
use std::ops::Range;

const RESOURCE_FORK: u8 = 0xFF;

/// Where the three pairs of each fork stand in the data of a file record.
const DATA_PAIRS_AT: usize = 74;
const RESOURCE_PAIRS_AT: usize = 86;

/// Three pairs of first block and block count.
const PAIRS_SIZE: usize = 12;

const LAST_VOLUME_BLOCK: u32 = 65_535;

/// The image that an answer concerns.
#[derive(Clone, Copy, Debug, PartialEq, Eq)]
pub enum Image {
    Catalog,
    Extents,
}

/// What a block of a file comes to.
#[derive(Clone, Debug, PartialEq, Eq)]
pub struct Mapping {
    /// 0 if the block is covered and on the volume.
    pub number: u32,
    pub image: Image,
    /// Of a covered block where the covering record starts.
    pub place: Place,
    /// 0 unless the block is covered.
    pub volume_block: u32,
    /// The 12 bytes of the covering pairs in their image, else the empty part at the catalog's start.
    pub part: Range<usize>,
}

/// A file record of a catalog: where it starts, and where in the image its data do.
struct FileRecord {
    place: Place,
    data_at: usize,
    file: File,
}

/// Three pairs that may cover the asked block, and how many blocks of theirs would come before it.
struct Candidate {
    image: Image,
    place: Place,
    part: Range<usize>,
    pairs: [Extent; 3],
    blocks_before: u32,
}

/// Which block of the volume holds a block of a file, after checking the asked key and both images.
///
/// Each image has working bytes of its own, which are treated as [`check`](crate::check) does; those of
/// the extents stay as they were where the asked key or the catalog is at fault.
#[expect(clippy::too_many_arguments, reason = "both images, their working bytes and the question")]
pub fn block(
    catalog: &[u8],
    catalog_work: &mut [u8],
    extents: &[u8],
    extents_work: &mut [u8],
    parent: u32,
    name: &[u8],
    fork: u8,
    block: u16,
) -> Mapping {
    if !is_lawful_fork(fork) {
        return without_block(Image::Catalog, Verdict::new(ASKED_KEY, Place::START));
    }
    let lookup = catalog::lookup(catalog, parent, name, catalog_work);
    if let Answer::Refused { number, place } = lookup.answer {
        return without_block(Image::Catalog, Verdict::new(number, place));
    }
    let sound = match open::<Hfs, NODE_SIZE>(extents, extents_work) {
        Ok(sound) => sound,
        Err(fault) => return without_block(Image::Extents, fault),
    };
    match find_file(catalog, &lookup) {
        Ok(file) => map_block(&file, &sound, fork, block),
        Err(verdict) => without_block(Image::Catalog, verdict),
    }
}

/// The file that a lookup in a sound catalog has found, or why there is none.
fn find_file(catalog: &[u8], lookup: &Lookup) -> Result<FileRecord, Verdict> {
    let (place, data) = match (lookup.answer, lookup.data.clone()) {
        (Answer::Found { place }, Some(data)) => (place, data),
        (Answer::Absent { node }, _) => return Err(Verdict::new(ABSENT, Place::of_node(node))),
        _ => unreachable!("found has data, and refused was answered before"),
    };
    match Entry::read(&catalog[data.clone()]) {
        Some(Entry::File(file)) => Ok(FileRecord { place, data_at: data.start, file }),
        _ => Err(Verdict::new(NOT_A_FILE, Place::START)),
    }
}

/// Maps a block of a file, once both images are known to be sound.
fn map_block(record: &FileRecord, sound: &SoundImage<NODE_SIZE>, fork: u8, block: u16) -> Mapping {
    let first = record.first_extents(fork, block);
    let asked = Key { file: record.file.file_id, fork, start: block };
    let covering = if first.covers() { Some(first) } else { covering_in_extents(sound, asked) };
    match covering {
        Some(covering) => covering.mapping(),
        None => without_block(Image::Extents, Verdict::new(NOT_COVERED, Place::START)),
    }
}

impl FileRecord {
    /// The pairs of a fork in the record, whether they cover the block or not.
    fn first_extents(&self, fork: u8, block: u16) -> Candidate {
        let (fork, pairs_at) = match fork {
            RESOURCE_FORK => (self.file.resource_fork, RESOURCE_PAIRS_AT),
            _ => (self.file.data_fork, DATA_PAIRS_AT),
        };
        let at = self.data_at + pairs_at;
        Candidate {
            image: Image::Catalog,
            place: self.place,
            part: at..at + PAIRS_SIZE,
            pairs: fork.first_extents,
            blocks_before: block.into(),
        }
    }
}

/// The extents record that covers the block at which the asked key starts.
fn covering_in_extents(sound: &SoundImage<NODE_SIZE>, asked: Key) -> Option<Candidate> {
    let nearest = last_not_above(sound, asked)?;
    if (nearest.key.file, nearest.key.fork) != (asked.file, asked.fork) {
        return None;
    }
    let data = &sound.nodes.as_flattened()[nearest.data.clone()];
    let pair = |at: usize| Extent { first_block: be16(data, at), block_count: be16(data, at + 2) };
    let candidate = Candidate {
        image: Image::Extents,
        place: nearest.place,
        part: nearest.data,
        pairs: [0, 4, 8].map(pair),
        blocks_before: u32::from(asked.start - nearest.key.start),
    };
    candidate.covers().then_some(candidate)
}

impl Candidate {
    /// Whether the three counts go past the block.
    fn covers(&self) -> bool {
        let blocks: u32 = self.pairs.iter().map(|pair| u32::from(pair.block_count)).sum();
        self.blocks_before < blocks
    }

    fn mapping(self) -> Mapping {
        let volume_block = self.volume_block();
        if volume_block > LAST_VOLUME_BLOCK {
            return without_block(self.image, Verdict::new(VOLUME_BLOCK, Place::START));
        }
        let Candidate { image, place, part, .. } = self;
        Mapping { number: 0, image, place, volume_block, part }
    }

    /// The pairs counted off in order.
    fn volume_block(&self) -> u32 {
        let mut blocks_before = self.blocks_before;
        for pair in self.pairs {
            let count = u32::from(pair.block_count);
            if blocks_before < count {
                return u32::from(pair.first_block) + blocks_before;
            }
            blocks_before -= count;
        }
        unreachable!("the counts go past the block")
    }
}

fn without_block(image: Image, verdict: Verdict) -> Mapping {
    let Verdict { number, place } = verdict;
    Mapping { number, image, place, volume_block: 0, part: 0..0 }
}
