//! Builds images of extents overflow files, of HFS and HFS Plus, of HFS catalog files, and of both of
//! one volume: sound ones, the paper's bench images and spoiled ones. And rows of leaf records, lawful
//! and spoiled.
//!
//! Nothing here reads an image back; what a reader should say follows from how it was built.

pub mod bench;
pub mod bench_plus;
mod build;
pub mod by_hand;
pub mod catalog;
pub mod format;
mod garbage;
pub mod key;
mod largest;
pub mod node;
mod numbering;
pub mod plan;
pub mod rng;
pub mod rows;
pub mod samples;
mod shape;
pub mod spoil;
mod tree_key;
mod trees;
pub mod volume;

pub use build::{build, build_with_records, Built, Level};
pub use format::{Edition, Format, Tree, PLUS_NODE_SIZES};
pub use key::Key;
pub use node::{Pointer, Record};
pub use plan::Plan;
pub use rng::Rng;
