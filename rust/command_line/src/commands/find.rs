//! `find`: what stands under a key of a sound tree?

use super::record::Record;
use super::refused::refuse;
use crate::command::Key;
use crate::fault::Fault;
use crate::files;
use crate::json::Object;
use crate::output::{Output, Said};
use crate::place::At;
use crate::trouble::{Status, Trouble};
use hfs_btree::{catalog, editions, Answer, Lookup, Place};
use std::fmt;
use std::path::Path;

pub fn run(file: &Path, key: &Key, output: &mut Output) -> Result<Status, Trouble> {
    let form = key.form();
    let image = files::read_image(file, form)?;
    let mut work = form.work(&image);
    match key {
        Key::Extents { edition, node_size, file, fork, start } => {
            let (file, fork, start) = (*file, fork.byte(), *start);
            let lookup =
                editions::lookup(*edition, *node_size, &image, file, fork, start, &mut work);
            say(lookup, key, &image, output)
        }
        Key::Catalog(asked) => {
            let lookup = catalog::lookup(&image, asked.parent, &asked.name, &mut work);
            say(lookup, key, &image, output)
        }
    }
}

fn say<Data: Into<Record>>(
    lookup: Lookup<Data>,
    key: &Key,
    image: &[u8],
    output: &mut Output,
) -> Result<Status, Trouble> {
    let form = key.form();
    let path = lookup.path[..lookup.path_len as usize].to_vec();
    let searched = |place| Searched { at: At::new(form, place), path, compared: lookup.compared };
    match lookup.answer {
        Answer::Found { place } => {
            output.say(&Found { searched: searched(place), record: lookup.data.into() })?;
            Ok(Status::Yes)
        }
        Answer::Absent { node } => {
            output.say(&Absent(searched(Place { node, offset: 0 })))?;
            Ok(Status::No)
        }
        Answer::Refused { number, place } => refuse(Fault::new(form, image, number, place), output),
    }
}

/// The path of a search, and the place where it ended.
struct Searched {
    at: At,
    path: Vec<u32>,
    compared: u32,
}

impl fmt::Display for Searched {
    fn fmt(&self, f: &mut fmt::Formatter<'_>) -> fmt::Result {
        let nodes: Vec<String> = self.path.iter().map(u32::to_string).collect();
        let path = if nodes.is_empty() { "none".to_string() } else { nodes.join(" ") };
        write!(f, "{}\npath: {path}\nkeys compared: {}", self.at, self.compared)
    }
}

impl Searched {
    fn object(&self) -> Object {
        self.at.object().with("path", self.path.clone()).with("compared", self.compared)
    }
}

struct Found {
    searched: Searched,
    record: Record,
}

impl fmt::Display for Found {
    fn fmt(&self, f: &mut fmt::Formatter<'_>) -> fmt::Result {
        write!(f, "found at {}\n{}", self.searched, self.record)
    }
}

impl Said for Found {
    fn object(&self) -> Object {
        let object = Object::new().with("answer", "found").with("number", 0u32);
        object.and(self.searched.object()).and(self.record.object())
    }
}

struct Absent(Searched);

impl fmt::Display for Absent {
    fn fmt(&self, f: &mut fmt::Formatter<'_>) -> fmt::Result {
        write!(f, "absent: the search ended at {}", self.0)
    }
}

impl Said for Absent {
    fn object(&self) -> Object {
        Object::new().with("answer", "absent").with("number", 12u32).and(self.0.object())
    }
}
