//! Copies of an image with one field changed.

use crate::layout::{parts, Part};
use crate::written::NODE_SIZE;
use images::Rng;
use std::ops::Range;

/// How often each field of each kind of node is changed, each time in some node.
const TURNS: usize = 10;

/// Bytes to put into an image.
pub struct Change {
    pub at: usize,
    pub bytes: Vec<u8>,
}

pub fn changes(image: &[u8]) -> Vec<Change> {
    let mut rng = Rng::new(212);
    let mut changes = Vec::new();
    for Part { nodes, fields } in parts(image) {
        for field in fields {
            for _ in 0..TURNS {
                let node = nodes.start + rng.index(nodes.len());
                changes.push(change(&mut rng, image, node, field.clone()));
            }
        }
    }
    changes
}

/// One byte of the field changed, or all of it where it has room for a node's number.
fn change(rng: &mut Rng, image: &[u8], node: usize, field: Range<usize>) -> Change {
    let base = node * NODE_SIZE;
    if field.len() == 4 && rng.flip() {
        let nodes = image.len() / NODE_SIZE;
        // Now and then a number that no node has.
        let number = rng.index(nodes + nodes / 4) as u32;
        return Change { at: base + field.start, bytes: number.to_be_bytes().to_vec() };
    }
    let at = base + field.start + rng.index(field.len());
    let byte = image[at];
    let values =
        [byte ^ 1, byte.wrapping_add(1), byte ^ 0x80, !byte, byte ^ rng.between(1, 255) as u8];
    Change { at, bytes: vec![values[rng.index(values.len())]] }
}

/// Calls with the changed image, and puts its bytes back.
pub fn with_change<T>(image: &mut [u8], change: &Change, call: impl FnOnce(&[u8]) -> T) -> T {
    let changed = change.at..change.at + change.bytes.len();
    let kept = image[changed.clone()].to_vec();
    image[changed.clone()].copy_from_slice(&change.bytes);
    let answer = call(image);
    image[changed].copy_from_slice(&kept);
    answer
}
