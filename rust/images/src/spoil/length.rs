//! Number 1: lengths that are no whole number of nodes from 1 to 65,536.

use super::{Moment, Patch, Place, Spoiling, Stage};
use crate::build::Built;
use crate::node::MOST_NODES;

pub fn spoilings<K>(built: &Built<K>) -> Vec<Spoiling> {
    let (len, node_size) = (built.image.len(), built.format.node_size);
    let mut found = vec![
        resized("length_0".to_string(), 0),
        resized(format!("length_{}", node_size - 1), node_size - 1),
        resized("length_one_byte_short".to_string(), len - 1),
        resized("length_one_byte_over".to_string(), len + 1),
    ];
    // In larger nodes this takes up to two gigabytes.
    if node_size == 512 {
        found.push(resized("length_65537_nodes".to_string(), (MOST_NODES + 1) * node_size));
    }
    found
}

fn resized(what: String, len: usize) -> Spoiling {
    Spoiling {
        what,
        edited: 0,
        number: 1,
        place: Place::START,
        moment: Moment::once(Stage::Length),
        patches: vec![Patch::Resize(len)],
    }
}
