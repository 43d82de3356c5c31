//! A plain reader of HFS extents for speed: ordinary safe Rust, against which the proved reader is timed.
//!
//! It answers the same as the other readers, of extents of HFS alone: whether an image is sound, what
//! stands under a key or under each of many, and what can be salvaged. A node that keeps the rules is
//! passed in one go; only of one that does not is the fault looked for.

mod ascent;
mod check;
mod fault;
mod header;
mod key;
mod lookup;
mod many;
mod map;
mod node;
mod node_set;
mod records;
mod salvage;
mod search;
mod verdict;
mod walk;

pub use check::check;
pub use lookup::{lookup, Lookup};
pub use many::lookup_many;
pub use node_set::needed_work;
pub use salvage::{salvage, Salvage};
pub use verdict::Verdict;
