//! Times the proved reader and writer against plain code. Answers are compared first, times only printed.

mod agreement;
mod block;
mod catalog;
mod extents;
mod further;
mod growth;
mod headline;
mod layout;
mod lent;
mod one_by_one;
mod one_leaf;
mod plus;
mod spoiled;
mod timing;
mod writer;
mod written;

use std::process::ExitCode;
use written::Written;

fn main() -> ExitCode {
    let written = Written::of(written::MOST_NODES);
    if let Err(difference) = headline::print(&written) {
        eprintln!("{difference}");
        return ExitCode::FAILURE;
    }
    further::print(&written);
    ExitCode::SUCCESS
}
