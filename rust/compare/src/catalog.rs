//! The same questions about catalogs to both readers.

mod comparison;
mod expected;
pub mod families;
pub mod keys;

pub use comparison::CatalogComparison;
