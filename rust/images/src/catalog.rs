//! Builds images of HFS catalog files.

pub mod bench;
mod build;
pub mod character_order;
pub mod entry;
mod key;
mod names;
pub mod samples;

pub use build::{build, build_with, Built, CatalogPlan};
pub use key::{Key, BEFORE_NAME, MOST_NAME};
pub use names::{any_name, other_case};
