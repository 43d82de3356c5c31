//! How an edition of the extents tree is asked.

use crate::layout::{Asked, Layout};

/// An extents tree, whose keys are a file number, a fork byte and a start block.
pub trait Edition: Layout {
    fn ask<'a>(file: u32, fork: u8, start: u32) -> Asked<Self::Key<'a>>;
}
