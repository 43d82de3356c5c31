//! The fields of a catalog record, in words and for scripts.

use crate::date::Date;
use crate::extents::Pairs;
use crate::json::Object;
use crate::name::{hex, text, Quoted};
use hfs_btree::catalog::{Directory, Entry, File, Fork, Thread};
use std::fmt;

/// The fields of a record, each with its name; a space in a name is an underscore in JSON.
pub struct Fields(Vec<(&'static str, Field)>);

enum Field {
    Word(&'static str),
    Number(u32),
    Date(u32),
    Bytes(Vec<u8>),
    Name(Vec<u8>),
    Extents(Pairs),
}

impl From<Entry> for Fields {
    fn from(entry: Entry) -> Fields {
        Fields(match entry {
            Entry::Directory(directory) => directory_fields(directory),
            Entry::File(file) => file_fields(file),
            Entry::DirectoryThread(thread) => thread_fields("directory thread", thread),
            Entry::FileThread(thread) => thread_fields("file thread", thread),
        })
    }
}

fn directory_fields(directory: Directory) -> Vec<(&'static str, Field)> {
    vec![
        ("kind", Field::Word("directory")),
        ("directory_number", Field::Number(directory.directory_id)),
        ("entries", Field::Number(directory.valence.into())),
        ("flags", Field::Number(directory.flags.into())),
        ("created", Field::Date(directory.created)),
        ("modified", Field::Date(directory.modified)),
        ("backed_up", Field::Date(directory.backed_up)),
        ("finder_info", Field::Bytes(directory.finder_info.into())),
        ("more_finder_info", Field::Bytes(directory.more_finder_info.into())),
    ]
}

fn file_fields(file: File) -> Vec<(&'static str, Field)> {
    vec![
        ("kind", Field::Word("file")),
        ("file_number", Field::Number(file.file_id)),
        ("flags", Field::Number(file.flags.into())),
        ("file_type", Field::Number(file.file_type.into())),
        ("data_first_block", Field::Number(file.data_fork.first_block.into())),
        ("data_logical_length", Field::Number(file.data_fork.logical_length)),
        ("data_physical_length", Field::Number(file.data_fork.physical_length)),
        ("data_extents", Field::Extents(first_extents(file.data_fork))),
        ("resource_first_block", Field::Number(file.resource_fork.first_block.into())),
        ("resource_logical_length", Field::Number(file.resource_fork.logical_length)),
        ("resource_physical_length", Field::Number(file.resource_fork.physical_length)),
        ("resource_extents", Field::Extents(first_extents(file.resource_fork))),
        ("created", Field::Date(file.created)),
        ("modified", Field::Date(file.modified)),
        ("backed_up", Field::Date(file.backed_up)),
        ("clump_size", Field::Number(file.clump_size.into())),
        ("finder_info", Field::Bytes(file.finder_info.into())),
        ("more_finder_info", Field::Bytes(file.more_finder_info.into())),
    ]
}

fn thread_fields(kind: &'static str, thread: Thread) -> Vec<(&'static str, Field)> {
    vec![
        ("kind", Field::Word(kind)),
        ("thread_parent", Field::Number(thread.parent_id)),
        ("thread_name_length", Field::Number(thread.name_length.into())),
        ("thread_name", Field::Name(thread.name().to_vec())),
    ]
}

fn first_extents(fork: Fork) -> Pairs {
    let pair =
        |extent: hfs_btree::catalog::Extent| [extent.first_block.into(), extent.block_count.into()];
    Pairs::new(fork.first_extents.map(pair))
}

impl Fields {
    pub fn object(&self) -> Object {
        self.0.iter().fold(Object::new(), |object, (name, field)| match field {
            Field::Word(word) => object.with(name, *word),
            Field::Number(number) | Field::Date(number) => object.with(name, *number),
            Field::Bytes(bytes) => object.with(name, hex(bytes)),
            Field::Name(bytes) => {
                object.with(name, text(bytes)).with("thread_name_hex", hex(bytes))
            }
            Field::Extents(pairs) => object.with(name, pairs),
        })
    }
}

impl fmt::Display for Fields {
    fn fmt(&self, f: &mut fmt::Formatter<'_>) -> fmt::Result {
        for (i, (name, field)) in self.0.iter().enumerate() {
            let break_before = if i > 0 { "\n" } else { "" };
            write!(f, "{break_before}{}: {field}", name.replace('_', " "))?;
        }
        Ok(())
    }
}

impl fmt::Display for Field {
    fn fmt(&self, f: &mut fmt::Formatter<'_>) -> fmt::Result {
        match self {
            Field::Word(word) => write!(f, "{word}"),
            Field::Number(number) => write!(f, "{number}"),
            Field::Date(seconds) => write!(f, "{}", Date(*seconds)),
            Field::Bytes(bytes) => write!(f, "{}", hex(bytes)),
            Field::Name(bytes) => write!(f, "{}", Quoted(bytes)),
            Field::Extents(pairs) => write!(f, "{pairs}"),
        }
    }
}
