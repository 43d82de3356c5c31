//! The same questions about blocks of files to both readers.

mod asked;
mod comparison;
mod expected;
pub mod families;
mod question;
mod tally;

pub use comparison::BlockComparison;
pub use tally::BlockTally;
