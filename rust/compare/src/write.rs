//! The same rows of leaf records to both writers.

mod comparison;
pub mod families;
mod held;
mod question;
mod tally;

pub use comparison::WriteComparison;
pub use tally::WriteTally;
