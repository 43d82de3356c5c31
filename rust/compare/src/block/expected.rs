//! What the reference says of a block, in the words of the proved reader.

use super::question::Asked;
use hfs_btree::block::{Image, Mapping, Part, Place};
use std::ops::Range;

/// With the working bytes of the catalog and of the extents.
pub fn block(catalog: &[u8], extents: &[u8], asked: &Asked, work: &mut [Vec<u8>; 2]) -> Mapping {
    let Asked { key, fork, block } = asked;
    let [catalog_work, extents_work] = work;
    let said = reference::block(
        catalog,
        catalog_work,
        extents,
        extents_work,
        key.parent,
        &key.name,
        *fork,
        *block,
    );
    let (image, bytes) = match said.image {
        reference::block::Image::Catalog => (Image::Catalog, catalog),
        reference::block::Image::Extents => (Image::Extents, extents),
    };
    let reference::Place { node, offset } = said.place;
    Mapping {
        answer: said.number.into(),
        image,
        place: Place { node, offset },
        volume_block: said.volume_block,
        part: part(bytes, said.part),
    }
}

/// The proved reader copies the bytes where the reference says where they are.
fn part(image: &[u8], range: Range<usize>) -> Part {
    let mut bytes = [0; 12];
    let (start, len) = (range.start as u32, range.len() as u32);
    bytes[..range.len()].copy_from_slice(&image[range]);
    Part { start, len, bytes }
}
