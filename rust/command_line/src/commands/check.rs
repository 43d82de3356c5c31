//! `check`: is the tree sound, and if not, what is its first fault?

use crate::fault::Fault;
use crate::files;
use crate::form::Form;
use crate::json::Object;
use crate::leaf_list::{summary, Summary};
use crate::output::{Count, Output, Said};
use crate::trouble::{Status, Trouble};
use std::fmt;
use std::path::Path;

pub fn run(file: &Path, form: Form, output: &mut Output) -> Result<Status, Trouble> {
    let image = files::read_image(file, form)?;
    match Fault::of(form, &image, form.check(&image)) {
        Some(fault) => not_sound(fault, output),
        None => {
            output.say(&Sound(summary(form, &image)))?;
            Ok(Status::Yes)
        }
    }
}

/// Says why a tree did not pass.
pub fn not_sound(fault: Fault, output: &mut Output) -> Result<Status, Trouble> {
    output.say(&NotSound(fault))?;
    Ok(Status::No)
}

struct Sound(Summary);

impl fmt::Display for Sound {
    fn fmt(&self, f: &mut fmt::Formatter<'_>) -> fmt::Result {
        let Summary { nodes, free_nodes, depth, leaf_records } = self.0;
        let (nodes, leaf_records) = (Count(nodes, "node"), Count(leaf_records, "leaf record"));
        write!(f, "sound: {nodes}, {free_nodes} free, depth {depth}, {leaf_records}")
    }
}

impl Said for Sound {
    fn object(&self) -> Object {
        let Summary { nodes, free_nodes, depth, leaf_records } = self.0;
        Object::new()
            .with("answer", "sound")
            .with("number", 0u32)
            .with("nodes", nodes)
            .with("free_nodes", free_nodes)
            .with("depth", depth)
            .with("leaf_records", leaf_records)
    }
}

struct NotSound(Fault);

impl fmt::Display for NotSound {
    fn fmt(&self, f: &mut fmt::Formatter<'_>) -> fmt::Result {
        write!(f, "not sound: {}", self.0)
    }
}

impl Said for NotSound {
    fn object(&self) -> Object {
        Object::new().with("answer", "not sound").and(self.0.object())
    }
}
