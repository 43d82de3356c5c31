//! A raw HFS volume image: its master directory block, and the pieces of a fork cut out of it.

use crate::extents::Pairs;
use crate::json::Object;
use crate::leaf_list::{long, word};
use crate::output::Said;
use std::fmt;
use std::fs::File;
use std::io::{self, Read, Seek, SeekFrom};
use std::path::Path;

/// Where the master directory block stands, and as much of it as is read.
const BLOCK_AT: u64 = 1024;
const BLOCK_SIZE: usize = 162;

const SIGNATURE: u16 = 0x4244;
const SECTOR_SIZE: u64 = 512;

/// A volume image, read where it stands.
pub struct Volume {
    file: File,
    size: u64,
    allocation_block_size: u32,
    first_sector: u16,
    pub extents: Fork,
    pub catalog: Fork,
}

/// The length of a tree file, and its first three extents.
pub struct Fork {
    pub size: u32,
    pub first_extents: Pairs,
}

/// What is wrong with a volume.
pub enum Wrong {
    /// It has no master directory block.
    TooShort,
    Signature(u16),
    AllocationBlockSize(u32),
    /// The blocks of a piece do not all lie in the image.
    BeyondEnd {
        tree: &'static str,
        piece: [u32; 2],
    },
    /// A tree file has more blocks than there are pieces for.
    Missing {
        tree: &'static str,
        blocks: u32,
        have: u32,
    },
}

/// An error of the file, or of what stands in it.
pub enum Stop {
    Wrong(Wrong),
    Io(io::Error),
}

impl From<io::Error> for Stop {
    fn from(error: io::Error) -> Stop {
        Stop::Io(error)
    }
}

impl From<Wrong> for Stop {
    fn from(wrong: Wrong) -> Stop {
        Stop::Wrong(wrong)
    }
}

impl Volume {
    pub fn open(path: &Path) -> Result<Volume, Stop> {
        let mut file = File::open(path)?;
        let size = file.seek(SeekFrom::End(0))?;
        if size < BLOCK_AT + BLOCK_SIZE as u64 {
            return Err(Wrong::TooShort.into());
        }
        let mut block = [0; BLOCK_SIZE];
        file.seek(SeekFrom::Start(BLOCK_AT))?;
        file.read_exact(&mut block)?;
        Ok(Volume::read(file, size, &block)?)
    }

    fn read(file: File, size: u64, block: &[u8; BLOCK_SIZE]) -> Result<Volume, Wrong> {
        let (signature, allocation_block_size) = (word(block, 0), long(block, 20));
        if signature != SIGNATURE {
            return Err(Wrong::Signature(signature));
        }
        if allocation_block_size == 0 || u64::from(allocation_block_size) % SECTOR_SIZE != 0 {
            return Err(Wrong::AllocationBlockSize(allocation_block_size));
        }
        let fork = |at: usize| Fork {
            size: long(block, at),
            first_extents: Pairs::read(&block[at + 4..at + 16]),
        };
        let (first_sector, extents, catalog) = (word(block, 28), fork(130), fork(146));
        Ok(Volume { file, size, allocation_block_size, first_sector, extents, catalog })
    }

    /// How many allocation blocks a fork takes.
    pub fn blocks(&self, fork: &Fork) -> u32 {
        fork.size.div_ceil(self.allocation_block_size)
    }

    /// The bytes of a tree file, one piece behind the other, up to so many.
    pub fn cut(&mut self, tree: &'static str, pieces: &Pairs, size: u32) -> Result<Vec<u8>, Stop> {
        let mut bytes = Vec::new();
        for &piece in pieces.as_slice() {
            let [first, count] = piece;
            let block = u64::from(self.allocation_block_size);
            let start = u64::from(self.first_sector) * SECTOR_SIZE + u64::from(first) * block;
            let wanted = (u64::from(count) * block).min(u64::from(size) - bytes.len() as u64);
            if wanted > 0 && start + wanted > self.size {
                return Err(Wrong::BeyondEnd { tree, piece }.into());
            }
            bytes.try_reserve_exact(wanted as usize).map_err(io::Error::from)?;
            self.file.seek(SeekFrom::Start(start))?;
            let read = (&mut self.file).take(wanted).read_to_end(&mut bytes)?;
            if (read as u64) < wanted {
                return Err(Stop::Io(io::ErrorKind::UnexpectedEof.into()));
            }
        }
        Ok(bytes)
    }
}

impl Wrong {
    fn reason(&self) -> String {
        match self {
            Wrong::TooShort => "too short for a volume: no master directory block".to_string(),
            Wrong::Signature(signature) => {
                format!("no HFS volume: the signature at byte 1024 is {signature:04X}, not 4244")
            }
            Wrong::AllocationBlockSize(size) => {
                format!("the allocation block size at byte 1044 is {size}, not a multiple of 512 above 0")
            }
            Wrong::BeyondEnd { tree, piece: [first, count] } => {
                format!("the {tree} has {count} blocks from block {first} on, and the volume image ends before")
            }
            Wrong::Missing { tree, blocks, have } => {
                format!("the {tree} has {blocks} blocks, and pieces for {have} of them")
            }
        }
    }
}

impl fmt::Display for Wrong {
    fn fmt(&self, f: &mut fmt::Formatter<'_>) -> fmt::Result {
        write!(f, "refused: {}", self.reason())
    }
}

impl Said for Wrong {
    fn object(&self) -> Object {
        Object::new().with("answer", "refused").with("reason", self.reason())
    }
}
