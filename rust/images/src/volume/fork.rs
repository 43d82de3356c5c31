//! The blocks of one fork: three pairs in its file record, and three in each extents record.

use crate::catalog::entry::Pairs;
use crate::rng::Rng;

pub const DATA_FORK: u8 = 0x00;
pub const RESOURCE_FORK: u8 = 0xFF;

/// Three pairs, and the file block that they start with.
#[derive(Clone, Copy, Debug, PartialEq, Eq)]
pub struct Piece {
    pub start: u16,
    pub pairs: Pairs,
}

/// What the records of a volume say of a fork.
#[derive(Clone, Debug)]
pub struct Fork {
    /// The three pairs in the file record.
    pub first: Pairs,
    /// Those in extents records, ascending.
    pub later: Vec<Piece>,
}

/// What is unusual about the pairs of a fork.
#[derive(Clone, Copy)]
enum Style {
    Usual,
    ZeroCounts,
    Gaps,
    Overlaps,
    /// Volume blocks right below 65,536 and right above.
    LastBlocks,
    /// Counts that add up to more than there are file blocks.
    LargeCounts,
}

const STYLES: [Style; 7] = [
    Style::Usual,
    Style::Usual,
    Style::ZeroCounts,
    Style::Gaps,
    Style::Overlaps,
    Style::LastBlocks,
    Style::LargeCounts,
];

/// How many extents records a fork of a random volume has.
const LATER_COUNTS: [usize; 6] = [0, 0, 1, 2, 3, 6];

impl Piece {
    pub fn blocks(&self) -> u32 {
        blocks(self.pairs)
    }
}

impl Fork {
    pub const EMPTY: Fork = Fork { first: [(0, 0); 3], later: Vec::new() };

    /// The pieces of the fork, that in the file record first.
    pub fn pieces(&self) -> impl Iterator<Item = Piece> + use<'_> {
        [Piece { start: 0, pairs: self.first }].into_iter().chain(self.later.iter().copied())
    }

    /// A fork with so many extents records, as far as there are file blocks for them, whose pairs have
    /// this many blocks each.
    pub fn regular(rng: &mut Rng, later: usize, block_count: u16) -> Fork {
        let mut any_pairs = || [(); 3].map(|()| (rng.next_u64() as u16 / 2, block_count));
        let first = any_pairs();
        let starts = (1..=later).map_while(|index| {
            let start = index * 3 * usize::from(block_count);
            u16::try_from(start).ok()
        });
        let later = starts.map(|start| Piece { start, pairs: any_pairs() }).collect();
        Fork { first, later }
    }

    /// A fork of any style, of which one in eight is empty.
    pub fn any(rng: &mut Rng) -> Fork {
        if rng.index(8) == 0 {
            return Fork::EMPTY;
        }
        let style = STYLES[rng.index(STYLES.len())];
        let mut fork = Fork { first: style.pairs(rng), later: Vec::new() };
        let mut end = blocks(fork.first);
        for _ in 0..LATER_COUNTS[rng.index(LATER_COUNTS.len())] {
            // A key has 16 bits for the start block.
            let Ok(start) = u16::try_from(style.start_after(rng, end)) else {
                break;
            };
            let piece = Piece { start, pairs: style.pairs(rng) };
            end = u32::from(start) + piece.blocks();
            // Without a block of its own a piece may start where the next does, which no tree has.
            if fork.later.last().is_none_or(|last| last.start < start) {
                fork.later.push(piece);
            }
        }
        fork
    }
}

impl Style {
    fn pairs(self, rng: &mut Rng) -> Pairs {
        [(); 3].map(|()| self.pair(rng))
    }

    fn pair(self, rng: &mut Rng) -> (u16, u16) {
        let first_block = rng.index(60_000) as u16;
        let block_count = rng.between(1, 6) as u16;
        match self {
            Style::Usual | Style::Gaps | Style::Overlaps => (first_block, block_count),
            Style::ZeroCounts => (first_block, if rng.flip() { 0 } else { block_count }),
            Style::LastBlocks => (u16::MAX - rng.index(6) as u16, block_count),
            Style::LargeCounts => (first_block, u16::MAX - rng.index(50_000) as u16),
        }
    }

    /// The start block of a piece after one that ends before `end`.
    fn start_after(self, rng: &mut Rng, end: u32) -> u32 {
        let shift = rng.between(1, 6) as u32;
        match self {
            Style::Gaps => end + shift,
            // With large counts the next piece could never start otherwise.
            Style::Overlaps | Style::LargeCounts => {
                end.min(u16::MAX.into()).saturating_sub(rng.index(4) as u32 * shift)
            }
            Style::Usual | Style::ZeroCounts | Style::LastBlocks => end,
        }
    }
}

fn blocks(pairs: Pairs) -> u32 {
    pairs.iter().map(|&(_, count)| u32::from(count)).sum()
}
