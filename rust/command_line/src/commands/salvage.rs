//! `salvage`: what do these bytes still show under a key, whatever state they are in?

use super::record::Record;
use super::refused::refuse;
use crate::command::Key;
use crate::fault::Fault;
use crate::files;
use crate::json::Object;
use crate::output::{Output, Said};
use crate::place::At;
use crate::trouble::{Status, Trouble};
use hfs_btree::{catalog, editions, Salvage, SalvageAnswer};
use std::fmt;
use std::path::Path;

pub fn run(file: &Path, key: &Key, output: &mut Output) -> Result<Status, Trouble> {
    let image = files::read_image(file, key.form())?;
    match key {
        Key::Extents { edition, node_size, file, fork, start } => {
            let salvage =
                editions::salvage(*edition, *node_size, &image, *file, fork.byte(), *start);
            say(salvage, key, &image, output)
        }
        Key::Catalog(asked) => {
            say(catalog::salvage(&image, asked.parent, &asked.name), key, &image, output)
        }
    }
}

fn say<Data: Into<Record>>(
    salvage: Salvage<Data>,
    key: &Key,
    image: &[u8],
    output: &mut Output,
) -> Result<Status, Trouble> {
    let form = key.form();
    match salvage.answer {
        SalvageAnswer::Seen { place } => {
            output.say(&Seen { at: At::new(form, place), record: salvage.data.into() })?;
            Ok(Status::Yes)
        }
        SalvageAnswer::NotSeen => {
            output.say(&NotSeen)?;
            Ok(Status::No)
        }
        SalvageAnswer::Refused { number, place } => {
            refuse(Fault::new(form, image, number, place), output)
        }
    }
}

struct Seen {
    at: At,
    record: Record,
}

impl fmt::Display for Seen {
    fn fmt(&self, f: &mut fmt::Formatter<'_>) -> fmt::Result {
        writeln!(f, "seen at {}\n{}", self.at, self.record)?;
        write!(f, "seen proves nothing: a freed node may hold an old record")
    }
}

impl Said for Seen {
    fn object(&self) -> Object {
        Object::new()
            .with("answer", "seen")
            .with("number", 13u32)
            .and(self.at.object())
            .and(self.record.object())
            .with("note", "seen proves nothing")
    }
}

struct NotSeen;

impl fmt::Display for NotSeen {
    fn fmt(&self, f: &mut fmt::Formatter<'_>) -> fmt::Result {
        writeln!(f, "not seen: no leaf that is whole by itself has the key")?;
        write!(f, "seen proves nothing, nor does not seen: the leaf that had it may be damaged")
    }
}

impl Said for NotSeen {
    fn object(&self) -> Object {
        let object = Object::new().with("answer", "not seen").with("number", 14u32);
        object.with("note", "seen proves nothing, nor does not seen")
    }
}
