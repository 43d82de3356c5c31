//! Which leaf record of a sound extents tree has the highest key not above an asked one.

use crate::check::SoundImage;
use crate::descent::leaf_for;
use crate::halving::halve;
use crate::hfs::{key, Hfs, NODE_SIZE};
use crate::key::Key;
use crate::layout::Layout;
use crate::node::range_in_image;
use crate::place::Place;
use crate::record::Keyed;
use std::ops::Range;

type Leaf = <Hfs as Layout>::Leaf;

/// A leaf record: its key, where it starts, and where in the image its data are.
pub struct Nearest {
    pub key: Key,
    pub place: Place,
    pub data: Range<usize>,
}

/// None if all keys are above the asked one.
pub fn last_not_above(sound: &SoundImage<NODE_SIZE>, asked: Key) -> Option<Nearest> {
    let number = leaf_for(sound, asked.packed())?;
    // A pointer has the first key of its child, so that no leaf further left has a higher key to offer.
    let records = Leaf::records(&sound.nodes[number]);
    let record = halve::<Leaf>(records, asked.packed()).reached?;
    Some(Nearest {
        key: key(&records[record]),
        place: Place::in_node(number as u32, Leaf::start(records, record)),
        data: range_in_image::<NODE_SIZE>(number, Leaf::data(records, record)),
    })
}
