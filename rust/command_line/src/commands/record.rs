//! The data of a record that a tree has or shows, in words and for scripts.

use crate::entry::Fields;
use crate::extents::Pairs;
use crate::json::Object;
use hfs_btree::{catalog, editions};
use std::fmt;

/// What stands behind the key.
pub enum Record {
    Extents(Pairs),
    Entry(Fields),
}

impl From<editions::Data> for Record {
    fn from(data: editions::Data) -> Record {
        Record::Extents(Pairs::read(&data))
    }
}

impl From<catalog::Data> for Record {
    fn from(data: catalog::Data) -> Record {
        Record::Entry(data.entry().expect("a record of one of four types").into())
    }
}

impl Record {
    pub fn object(&self) -> Object {
        match self {
            Record::Extents(pairs) => Object::new().with("extents", pairs),
            Record::Entry(fields) => fields.object(),
        }
    }
}

impl fmt::Display for Record {
    fn fmt(&self, f: &mut fmt::Formatter<'_>) -> fmt::Result {
        match self {
            Record::Extents(pairs) => write!(f, "extents: {pairs}"),
            Record::Entry(fields) => write!(f, "{fields}"),
        }
    }
}
