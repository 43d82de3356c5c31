//! `block`: which block of the volume holds a block of a file?

use super::refused::{refuse, refuse_image};
use crate::command::BlockAsked;
use crate::extents::Pairs;
use crate::fault::Fault;
use crate::files;
use crate::form::Form;
use crate::json::Object;
use crate::output::{Output, Said};
use crate::place::At;
use crate::trouble::{Status, Trouble};
use hfs_btree::block::{block, Answer, Image, Mapping};
use std::fmt;

pub fn run(asked: &BlockAsked, output: &mut Output) -> Result<Status, Trouble> {
    let catalog = files::read_image(&asked.catalog, Form::Catalog)?;
    let extents = files::read_image(&asked.extents, Form::HFS)?;
    let mut catalog_work = Form::Catalog.work(&catalog);
    let mut extents_work = Form::HFS.work(&extents);
    let mapping = block(
        &catalog,
        &mut catalog_work,
        &extents,
        &mut extents_work,
        asked.key.parent,
        &asked.key.name,
        asked.fork.byte(),
        asked.block,
    );
    match mapping.answer {
        Answer::Covered => {
            output.say(&Covered(mapping))?;
            Ok(Status::Yes)
        }
        Answer::Refused { number } => refuse_mapping(number, mapping, &catalog, &extents, output),
        _ => {
            output.say(&NoBlock(mapping))?;
            Ok(Status::No)
        }
    }
}

fn refuse_mapping(
    number: u32,
    mapping: Mapping,
    catalog: &[u8],
    extents: &[u8],
    output: &mut Output,
) -> Result<Status, Trouble> {
    const ASKED_KEY: u32 = 11;
    let (name, form) = (name_of(mapping.image), form_of(mapping.image));
    let image = match mapping.image {
        Image::Catalog => catalog,
        Image::Extents => extents,
    };
    match number {
        ASKED_KEY => refuse(Fault::asked(form, number), output),
        _ => refuse_image(name, Fault::new(form, image, number, mapping.place), output),
    }
}

fn name_of(image: Image) -> &'static str {
    match image {
        Image::Catalog => "catalog",
        Image::Extents => "extents",
    }
}

fn form_of(image: Image) -> Form {
    match image {
        Image::Catalog => Form::Catalog,
        Image::Extents => Form::HFS,
    }
}

fn at(mapping: &Mapping) -> At {
    At::new(form_of(mapping.image), mapping.place)
}

struct Covered(Mapping);

impl fmt::Display for Covered {
    fn fmt(&self, f: &mut fmt::Formatter<'_>) -> fmt::Result {
        let Mapping { volume_block, image, part, .. } = &self.0;
        let record = match image {
            Image::Catalog => "the file's record in the catalog",
            Image::Extents => "an extents record",
        };
        writeln!(f, "volume block {volume_block}")?;
        writeln!(f, "covered by {record}: {}", at(&self.0))?;
        write!(f, "extents from byte {} on: {}", part.start, Pairs::read(&part.bytes))
    }
}

impl Said for Covered {
    fn object(&self) -> Object {
        let Mapping { volume_block, image, part, .. } = &self.0;
        Object::new()
            .with("answer", "covered")
            .with("number", 0u32)
            .with("volume_block", *volume_block)
            .with("image", name_of(*image))
            .and(at(&self.0).object())
            .with("extents_from", part.start)
            .with("extents", &Pairs::read(&part.bytes))
    }
}

/// Both trees are sound, and there is no such block.
struct NoBlock(Mapping);

impl NoBlock {
    fn words(&self) -> [&'static str; 2] {
        match self.0.answer {
            Answer::Absent => ["absent", "the catalog has no such key"],
            Answer::NotAFile => {
                ["no file", "the catalog has a directory or a thread under the key"]
            }
            Answer::NotCovered => ["no such block", "no record covers that block of the fork"],
            Answer::AboveLastBlock => [
                "no such volume block",
                "the covering record leads above 65,535, the last of a volume",
            ],
            Answer::Covered | Answer::Refused { .. } => unreachable!("these are said otherwise"),
        }
    }
}

impl fmt::Display for NoBlock {
    fn fmt(&self, f: &mut fmt::Formatter<'_>) -> fmt::Result {
        let [answer, reason] = self.words();
        write!(f, "{answer}: {reason}")?;
        match self.0.answer {
            Answer::Absent => write!(f, "; the search ended at {}", at(&self.0)),
            _ => Ok(()),
        }
    }
}

impl Said for NoBlock {
    fn object(&self) -> Object {
        let [answer, reason] = self.words();
        let object = Object::new()
            .with("answer", answer)
            .with("number", self.0.answer.number())
            .with("reason", reason)
            .with("image", name_of(self.0.image));
        match self.0.answer {
            Answer::Absent => object.and(at(&self.0).object()),
            _ => object,
        }
    }
}
