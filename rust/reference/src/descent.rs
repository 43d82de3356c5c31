//! Which leaf of a sound extents tree a key leads to.

use crate::check::SoundImage;
use crate::halving::halve;
use crate::hfs::{Hfs, NODE_SIZE};
use crate::layout::Layout;
use crate::record::{child, Keyed};

type Index = <Hfs as Layout>::Index;

/// The number of the leaf that a packed key belongs in; none if it is below all keys, or there are none.
pub fn leaf_for(sound: &SoundImage<NODE_SIZE>, asked: u64) -> Option<usize> {
    let levels_above_leaves = sound.header.depth.checked_sub(1)?;
    let mut number = sound.header.root as usize;
    for _ in 0..levels_above_leaves {
        let node = &sound.nodes[number];
        let record = halve::<Index>(Index::records(node), asked).reached?;
        number = child::<Hfs, NODE_SIZE>(node, record) as usize;
    }
    Some(number)
}
