//! All tests of the wrapper, as one program, which is built faster than one for each file.

mod bench;
mod block;
mod catalog;
mod catalog_entries;
mod editions;
mod forms;
mod samples;
mod write_tree;
