//! A leaf record as one line of a listing.

use crate::entry::Fields;
use crate::extents::Pairs;
use crate::json::Object;
use crate::leaf_list::{long, word, LeafRecord};
use crate::name::{hex, text, Quoted};
use crate::output::Said;
use hfs_btree::catalog::Entry;
use hfs_btree::editions::Edition;
use std::fmt;

/// A record of an extents overflow file.
pub struct ExtentsLine {
    node: u32,
    offset: u32,
    file: u32,
    fork: u8,
    start: u32,
    pairs: Pairs,
}

impl ExtentsLine {
    pub fn read(edition: Edition, record: LeafRecord) -> ExtentsLine {
        let LeafRecord { node, offset, bytes } = record;
        let (fork, file, start, data) = match edition {
            Edition::Hfs => (bytes[1], long(bytes, 2), word(bytes, 6).into(), &bytes[8..]),
            Edition::HfsPlus => (bytes[2], long(bytes, 4), long(bytes, 8), &bytes[12..]),
        };
        ExtentsLine { node, offset, file, fork, start, pairs: Pairs::read(data) }
    }
}

impl fmt::Display for ExtentsLine {
    fn fmt(&self, f: &mut fmt::Formatter<'_>) -> fmt::Result {
        write!(f, "{} {} {}", self.file, self.fork, self.start)?;
        for [first, count] in self.pairs.as_slice() {
            write!(f, " {first} {count}")?;
        }
        Ok(())
    }
}

impl Said for ExtentsLine {
    fn object(&self) -> Object {
        Object::new()
            .with("node", self.node)
            .with("offset", self.offset)
            .with("file", self.file)
            .with("fork", u32::from(self.fork))
            .with("start", self.start)
            .with("extents", &self.pairs)
    }
}

/// A record of a catalog.
pub struct CatalogLine<'a> {
    node: u32,
    offset: u32,
    parent: u32,
    name: &'a [u8],
    entry: Entry,
}

impl CatalogLine<'_> {
    pub fn read(record: LeafRecord<'_>) -> CatalogLine<'_> {
        let LeafRecord { node, offset, bytes } = record;
        let name = &bytes[7..][..bytes[6].into()];
        // The data start on the first even byte behind the key.
        let data = &bytes[(7 + name.len()).next_multiple_of(2)..];
        let entry = Entry::read(data).expect("a record of one of four types");
        CatalogLine { node, offset, parent: long(bytes, 2), name, entry }
    }
}

impl fmt::Display for CatalogLine<'_> {
    fn fmt(&self, f: &mut fmt::Formatter<'_>) -> fmt::Result {
        write!(f, "{} {} ", self.parent, Quoted(self.name))?;
        match self.entry {
            Entry::Directory(directory) => write!(f, "directory {}", directory.directory_id),
            Entry::File(file) => write!(f, "file {}", file.file_id),
            Entry::DirectoryThread(thread) => {
                write!(f, "directory thread {} {}", thread.parent_id, Quoted(thread.name()))
            }
            Entry::FileThread(thread) => {
                write!(f, "file thread {} {}", thread.parent_id, Quoted(thread.name()))
            }
        }
    }
}

impl Said for CatalogLine<'_> {
    fn object(&self) -> Object {
        Object::new()
            .with("node", self.node)
            .with("offset", self.offset)
            .with("parent", self.parent)
            .with("name", text(self.name))
            .with("name_hex", hex(self.name))
            .and(Fields::from(self.entry).object())
    }
}
