//! The pieces of a volume's catalog: the first three are the volume's own, the later ones stand in the
//! extents overflow file.

use crate::extents::{Fork, Pairs};
use crate::form::Form;
use crate::volume::{Volume, Wrong};
use hfs_btree::{lookup, Answer};

/// The catalog's file number.
const CATALOG: u32 = 4;

/// All the pieces, by lookups in the extents image, which refuse one that is not sound.
pub fn catalog_pieces(volume: &Volume, extents: &[u8]) -> Result<Pairs, Wrong> {
    let blocks = volume.blocks(&volume.catalog);
    let mut work = Form::HFS.work(extents);
    let mut pieces = volume.catalog.first_extents.used();
    loop {
        let have = pieces.block_count();
        if have >= blocks {
            return Ok(pieces);
        }
        match record_from(have, extents, &mut work) {
            Some(more) if more.block_count() > 0 => pieces.append(more.used()),
            _ => return Err(Wrong::Missing { tree: "catalog", blocks, have }),
        }
    }
}

/// The pieces that an extents record has from this block of the catalog on.
fn record_from(block: u32, extents: &[u8], work: &mut [u8]) -> Option<Pairs> {
    let start = u16::try_from(block).ok()?;
    let lookup = lookup(extents, CATALOG, Fork::Data.byte(), start, work);
    matches!(lookup.answer, Answer::Found { .. }).then(|| Pairs::read(&lookup.data))
}
