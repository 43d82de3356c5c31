//! All tests that run the program, as one program of their own, which is built faster than one for each file.

mod answers;
mod answers_catalog;
mod checks;
mod closed_output;
mod common;
mod documents;
mod faults;
mod files;
mod help;
mod listings;
mod listings_catalog;
mod listings_stored;
mod new_files;
mod spoiled;
mod spoiled_block;
mod spoiled_volume;
mod spoiling;
mod two_gib;
mod usage;
mod volume;
mod volume_blocks;
mod volume_damaged;
mod volume_laid_out;
