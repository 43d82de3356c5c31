//! A plain reader of a file held in one byte image: an extents overflow file, of HFS or HFS Plus, or
//! an HFS catalog file. And a writer of fresh extents trees of HFS.
//!
//! It answers whether the image is sound, what stands under a key or under each of many, and what can
//! be salvaged. The functions here read extents of HFS; [`editions`] has both editions, and
//! [`catalog`] the catalog. [`block()`] reads a catalog and its extents together. [`write_tree`] lays
//! the records of a row down as an image.

pub mod block;
pub mod catalog;
mod check;
mod descent;
mod edition;
pub mod editions;
mod fresh_node;
mod halving;
mod header;
mod hfs;
mod hfs_calls;
mod hfs_plus;
mod key;
mod layout;
mod leaves;
mod listing;
mod lookup;
mod many;
mod map;
mod nearest;
mod node;
mod node_set;
mod place;
mod position;
mod record;
mod salvage;
mod side_by_side;
mod tree;
mod verdict;
mod work;
mod writing;

pub use block::block;
pub use hfs_calls::{check, lookup, salvage};
pub use key::Key;
pub use leaves::{leaf_records, LeafRecord};
pub use listing::listing;
pub use lookup::{Answer, Lookup};
pub use many::lookup_many;
pub use place::Place;
pub use salvage::{Salvage, SalvageAnswer};
pub use verdict::Verdict;
pub use work::needed_work;
pub use writing::write_tree;
