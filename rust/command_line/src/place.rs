//! A place of an image: a node, an offset in it, and the byte of the file that this is.

use crate::form::Form;
use crate::json::Object;
use hfs_btree::Place;
use std::fmt;

/// A place with its byte, counted from the image's start.
#[derive(Clone, Copy, Debug, PartialEq, Eq)]
pub struct At {
    pub place: Place,
    pub byte: usize,
}

impl At {
    pub fn new(form: Form, place: Place) -> At {
        let byte = place.node as usize * form.node_size() as usize + place.offset as usize;
        At { place, byte }
    }

    pub fn object(&self) -> Object {
        let Place { node, offset } = self.place;
        Object::new().with("node", node).with("offset", offset).with("byte", self.byte as u64)
    }
}

impl fmt::Display for At {
    fn fmt(&self, f: &mut fmt::Formatter<'_>) -> fmt::Result {
        let Place { node, offset } = self.place;
        write!(f, "node {node}, offset {offset} (byte {})", self.byte)
    }
}
