//! The exit status of an answer, and what keeps a command from having one.

use std::fmt;
use std::io;
use std::path::Path;
use std::process::ExitCode;

/// What the exit status says.
#[derive(Clone, Copy, Debug, PartialEq, Eq)]
pub enum Status {
    /// 0: sound, found, seen, covered, written.
    Yes,
    /// 1: not sound, absent, not seen, no such block.
    No,
    /// 3: refused.
    Refused,
}

impl From<Status> for ExitCode {
    fn from(status: Status) -> ExitCode {
        ExitCode::from(match status {
            Status::Yes => 0,
            Status::No => 1,
            Status::Refused => 3,
        })
    }
}

/// An error of a file or of usage: one line on standard error and exit status 2.
#[derive(Debug)]
pub struct Trouble(String);

impl Trouble {
    pub fn usage(what: impl fmt::Display) -> Trouble {
        Trouble(one_line(&format!("{what} (see hfs-btree --help)")))
    }

    pub fn file(path: &Path, error: impl fmt::Display) -> Trouble {
        Trouble(one_line(&format!("{}: {error}", path.display())))
    }

    pub fn output(error: &io::Error) -> Trouble {
        Trouble(one_line(&format!("standard output: {error}")))
    }
}

impl fmt::Display for Trouble {
    fn fmt(&self, f: &mut fmt::Formatter<'_>) -> fmt::Result {
        f.write_str(&self.0)
    }
}

/// A file's name may have any characters, and what is said of it is one line all the same.
pub fn one_line(text: &str) -> String {
    let shown = |c: char| match c.is_control() {
        true => c.escape_default().to_string(),
        false => c.to_string(),
    };
    text.chars().map(shown).collect()
}
