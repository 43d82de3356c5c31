//! Builds the catalog and the extents tree of one HFS volume, with files whose blocks stand in both.

pub mod bench;
mod build;
mod fork;
pub mod samples;

pub use build::{build, FileFork, Fit, Volume, VolumePlan};
pub use fork::{Fork, Piece, DATA_FORK, RESOURCE_FORK};
