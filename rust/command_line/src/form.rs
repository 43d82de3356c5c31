//! Which tree an image is taken for, and the calls that go by it.

use hfs_btree::editions::{self, Edition};
use hfs_btree::{catalog, Verdict};
use std::fmt;

/// No image has more nodes.
const MOST_NODES: u64 = 65_536;

/// The form that the user says a file has.
#[derive(Clone, Copy, Debug, PartialEq, Eq)]
pub enum Form {
    /// The extents overflow file of an edition, with its node size.
    Extents(Edition, u32),
    /// The catalog of HFS.
    Catalog,
}

impl Form {
    pub const HFS: Form = Form::Extents(Edition::Hfs, 512);

    /// The form of HFS Plus with this node size, if the reader has it.
    pub fn plus(node_size: u32) -> Option<Form> {
        const NOT_LISTED: u32 = 25;
        let verdict = editions::check(Edition::HfsPlus, node_size, &[], &mut []);
        (verdict.number != NOT_LISTED).then_some(Form::Extents(Edition::HfsPlus, node_size))
    }

    pub fn node_size(self) -> u32 {
        match self {
            Form::Extents(_, node_size) => node_size,
            Form::Catalog => 512,
        }
    }

    /// The length of the longest image.
    pub fn most_bytes(self) -> u64 {
        MOST_NODES * u64::from(self.node_size())
    }

    /// Working bytes, as many as a check of the image or a lookup in it needs.
    pub fn work(self, image: &[u8]) -> Vec<u8> {
        vec![0; editions::needed_work(self.node_size(), image.len())]
    }

    pub fn check(self, image: &[u8]) -> Verdict {
        let mut work = self.work(image);
        match self {
            Form::Extents(edition, size) => editions::check(edition, size, image, &mut work),
            Form::Catalog => catalog::check(image, &mut work),
        }
    }
}

impl fmt::Display for Form {
    fn fmt(&self, f: &mut fmt::Formatter<'_>) -> fmt::Result {
        match self {
            Form::Extents(Edition::Hfs, _) => write!(f, "an extents overflow file of HFS"),
            Form::Extents(Edition::HfsPlus, node_size) => {
                write!(f, "an extents overflow file of HFS Plus with nodes of {node_size} bytes")
            }
            Form::Catalog => write!(f, "a catalog of HFS"),
        }
    }
}
