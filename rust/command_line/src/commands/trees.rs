//! `trees`: cuts the two tree files out of a raw HFS volume image.

use super::catalog_pieces::catalog_pieces;
use super::refused::{refuse_image, refuse_volume};
use crate::extents::Pairs;
use crate::fault::Fault;
use crate::files;
use crate::form::Form;
use crate::json::Object;
use crate::output::{Output, Said};
use crate::trouble::{Status, Trouble};
use crate::volume::{Stop, Volume, Wrong};
use std::fmt;
use std::path::Path;

pub fn run(
    volume: &Path,
    folder: &Path,
    extents_only: bool,
    output: &mut Output,
) -> Result<Status, Trouble> {
    let cut =
        Volume::open(volume).map_err(Stopped::from).and_then(|mut volume| match extents_only {
            true => Ok(vec![extents_tree(&mut volume, u32::MAX)?]),
            false => Ok(both_trees(&mut volume)?.into()),
        });
    let trees = match cut {
        Ok(trees) => trees,
        Err(Stopped::Volume(Stop::Io(error))) => return Err(Trouble::file(volume, error)),
        Err(Stopped::Volume(Stop::Wrong(wrong))) => return refuse_volume(wrong, output),
        Err(Stopped::NotSound(fault)) => {
            let status = refuse_image("extents", fault, output)?;
            output.text(&"nothing is written; --extents-only cuts this tree out as it is")?;
            return Ok(status);
        }
    };
    let contents: Vec<(&str, &[u8])> = trees.iter().map(|tree| (tree.name, &*tree.bytes)).collect();
    let new = files::write_into(folder, &contents)?;
    for tree in &trees {
        output.say(tree)?;
    }
    output.finish()?;
    new.keep();
    Ok(Status::Yes)
}

/// Why nothing is cut out.
enum Stopped {
    Volume(Stop),
    /// The extents tree, by which the catalog's later pieces would be looked up.
    NotSound(Fault),
}

impl<Cause: Into<Stop>> From<Cause> for Stopped {
    fn from(cause: Cause) -> Stopped {
        Stopped::Volume(cause.into())
    }
}

/// A tree file, cut out of its volume.
struct Tree {
    name: &'static str,
    is_checked: bool,
    bytes: Vec<u8>,
    pieces: Pairs,
}

const EXTENTS: &str = "extents.img";
const CATALOG: &str = "catalog.img";

/// The extents overflow file as it is, up to so many bytes: its three extents are the volume's own.
fn extents_tree(volume: &mut Volume, most: u32) -> Result<Tree, Stop> {
    const TREE: &str = "extents overflow file";
    let pieces = volume.extents.first_extents.used();
    let (blocks, have) = (volume.blocks(&volume.extents), pieces.block_count());
    if have < blocks {
        return Err(Wrong::Missing { tree: TREE, blocks, have }.into());
    }
    let bytes = volume.cut(TREE, &pieces, volume.extents.size.min(most))?;
    Ok(Tree { name: EXTENTS, is_checked: false, bytes, pieces })
}

/// Both, if the extents tree is sound.
fn both_trees(volume: &mut Volume) -> Result<[Tree; 2], Stopped> {
    // Every longer length is refused, whatever the bytes are.
    let extents = extents_tree(volume, Form::HFS.most_bytes() as u32 + 1)?;
    if let Some(fault) = Fault::of(Form::HFS, &extents.bytes, Form::HFS.check(&extents.bytes)) {
        return Err(Stopped::NotSound(fault));
    }
    let pieces = catalog_pieces(volume, &extents.bytes)?;
    let bytes = volume.cut("catalog", &pieces, volume.catalog.size)?;
    let catalog = Tree { name: CATALOG, is_checked: false, bytes, pieces };
    Ok([Tree { is_checked: true, ..extents }, catalog])
}

impl Tree {
    fn verdict(&self) -> &'static str {
        match self.is_checked {
            true => "sound",
            false => "not checked",
        }
    }
}

impl fmt::Display for Tree {
    fn fmt(&self, f: &mut fmt::Formatter<'_>) -> fmt::Result {
        let Tree { name, bytes, pieces, .. } = self;
        write!(f, "{name}: {}, {} bytes, pieces {pieces}", self.verdict(), bytes.len())
    }
}

impl Said for Tree {
    fn object(&self) -> Object {
        Object::new()
            .with("answer", "cut")
            .with("file", self.name)
            .with("verdict", self.verdict())
            .with("bytes", self.bytes.len() as u64)
            .with("pieces", &self.pieces)
    }
}
