//! The command line over the safe wrapper: what was asked, the answer in words or as JSON, and the exit
//! status.
//!
//! Every verdict and every answer is the proved archive's. What this crate adds is reading files, cutting
//! trees out of a volume, following the leaves of an image that has passed its check, and words.

mod arguments;
mod command;
mod commands;
mod date;
mod entry;
mod extents;
mod fault;
mod files;
mod form;
mod help;
mod json;
mod leaf_list;
mod mac_roman;
mod name;
mod output;
mod place;
mod trouble;
mod volume;

use arguments::Arguments;
use command::Command;
use output::Output;
use std::ffi::OsString;
use std::io::Write;
pub use trouble::{Status, Trouble};

/// Answers a command line, without the program's name, on a sink for standard output.
pub fn run(given: impl Iterator<Item = OsString>, sink: &mut dyn Write) -> Result<Status, Trouble> {
    let given: Vec<OsString> = given.collect();
    if let Some(text) = help::asked(&given) {
        let mut output = Output::new(sink, false);
        output.line(&text)?;
        output.finish()?;
        return Ok(Status::Yes);
    }
    let (command, json) = Command::read(Arguments::read(given)?)?;
    let mut output = Output::new(sink, json);
    let status = commands::run(command, &mut output)?;
    output.finish()?;
    Ok(status)
}
