//! `hfs-btree`: the proved reader and writer of HFS trees, for the files that people have.

use std::env;
use std::io::{self, Write};
use std::process::ExitCode;

fn main() -> ExitCode {
    match command_line::run(env::args_os().skip(1), &mut io::stdout().lock()) {
        Ok(status) => status.into(),
        Err(trouble) => {
            // Where standard error is closed too, the exit status still tells.
            let _ = writeln!(io::stderr(), "hfs-btree: {trouble}");
            ExitCode::from(2)
        }
    }
}
