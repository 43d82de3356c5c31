//! Standard output: answers as lines of text, or each as one JSON object a line.

use crate::json::Object;
use crate::trouble::Trouble;
use std::fmt::{self, Display};
use std::io::{self, BufWriter, ErrorKind, Write};

/// What can be said: in words, and as an object for scripts.
pub trait Said: Display {
    fn object(&self) -> Object;
}

/// A number of things, by the name of one.
pub struct Count(pub u32, pub &'static str);

impl Display for Count {
    fn fmt(&self, f: &mut fmt::Formatter<'_>) -> fmt::Result {
        let Count(number, name) = self;
        let plural = if *number == 1 { "" } else { "s" };
        write!(f, "{number} {name}{plural}")
    }
}

/// Where answers go.
pub struct Output<'a> {
    sink: BufWriter<&'a mut dyn Write>,
    json: bool,
    /// The other end of a pipe has read all it wanted.
    is_closed: bool,
}

impl<'a> Output<'a> {
    pub fn new(sink: &'a mut dyn Write, json: bool) -> Output<'a> {
        Output { sink: BufWriter::with_capacity(1 << 16, sink), json, is_closed: false }
    }

    pub fn say(&mut self, said: &impl Said) -> Result<(), Trouble> {
        match self.json {
            // An object would be made for nobody.
            _ if self.is_closed => Ok(()),
            true => self.line(&said.object()),
            false => self.line(said),
        }
    }

    /// A line that only the text has, such as the titles of a table.
    pub fn text(&mut self, line: &impl Display) -> Result<(), Trouble> {
        match self.json {
            true => Ok(()),
            false => self.line(line),
        }
    }

    pub fn line(&mut self, line: &impl Display) -> Result<(), Trouble> {
        if self.is_closed {
            return Ok(());
        }
        let written = writeln!(self.sink, "{line}");
        self.heed(written)
    }

    /// Writes what is still held back.
    pub fn finish(&mut self) -> Result<(), Trouble> {
        if self.is_closed {
            return Ok(());
        }
        let flushed = self.sink.flush();
        self.heed(flushed)
    }

    /// A closed pipe is no trouble: whoever read it has what they wanted, and the exit status still tells.
    fn heed(&mut self, written: io::Result<()>) -> Result<(), Trouble> {
        match written {
            Err(error) if error.kind() == ErrorKind::BrokenPipe => {
                self.is_closed = true;
                Ok(())
            }
            Err(error) => Err(Trouble::output(&error)),
            Ok(()) => Ok(()),
        }
    }
}
