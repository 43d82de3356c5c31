//! Asks the proved reader and writer and the reference the same questions and stops at the first difference.

mod asking;
pub mod block;
pub mod catalog;
mod comparison;
mod expected;
pub mod families;
mod form;
mod hfs_calls;
mod keys;
mod lent;
mod question;
mod seed;
mod shown;
mod tally;
pub mod write;

pub use comparison::Comparison;
pub use seed::seed;
pub use tally::Tally;
