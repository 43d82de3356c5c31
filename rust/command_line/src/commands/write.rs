//! `write`: lays a row of leaf records down as a fresh tree of HFS.

use super::refused::refuse;
use crate::fault::Fault;
use crate::files;
use crate::form::Form;
use crate::json::Object;
use crate::output::{Count, Output, Said};
use crate::trouble::{one_line, Status, Trouble};
use hfs_btree::write_tree;
use std::fmt;
use std::path::{Path, PathBuf};

pub fn run(row: &Path, out: &Path, nodes: u32, output: &mut Output) -> Result<Status, Trouble> {
    let records = read_row(row)?;
    let mut target = vec![0; target_size(nodes)];
    let number = write_tree(&records, &mut target).number;
    if number != 0 {
        return refuse(Fault::asked(Form::HFS, number), output);
    }
    let new = files::write(out, &target)?;
    output.say(&Written { out: out.to_path_buf(), nodes, records: records.len() as u32 / 20 })?;
    output.finish()?;
    new.keep();
    Ok(Status::Yes)
}

/// A row of any length that can be meant; one that does not end is no row.
fn read_row(path: &Path) -> Result<Vec<u8>, Trouble> {
    const MOST: u64 = 1 << 32;
    let row = files::read(path, MOST + 1)?;
    match row.len() as u64 > MOST {
        true => Err(Trouble::file(path, "more than 4 GiB, which is no row of any tree")),
        false => Ok(row),
    }
}

/// One node more than a tree may have stands for every number that is too large: the writer refuses each.
fn target_size(nodes: u32) -> usize {
    nodes.min(65_537) as usize * 512
}

struct Written {
    out: PathBuf,
    nodes: u32,
    records: u32,
}

impl fmt::Display for Written {
    fn fmt(&self, f: &mut fmt::Formatter<'_>) -> fmt::Result {
        let (nodes, records) = (Count(self.nodes, "node"), Count(self.records, "leaf record"));
        let out = one_line(&self.out.to_string_lossy());
        write!(f, "written: {out}, {nodes}, {records}")
    }
}

impl Said for Written {
    fn object(&self) -> Object {
        Object::new()
            .with("answer", "written")
            .with("number", 0u32)
            .with("out", self.out.to_string_lossy().into_owned())
            .with("nodes", self.nodes)
            .with("leaf_records", self.records)
    }
}
