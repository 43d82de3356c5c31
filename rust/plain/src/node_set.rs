//! Which nodes have been met so far.

use crate::node::NODE_SIZE;

/// How many working bytes a check or a lookup in an image of this length needs: one bit a node.
pub const fn needed_work(image_len: usize) -> usize {
    (image_len / NODE_SIZE).div_ceil(8)
}

/// A set of node numbers, as a bitmap in the bit order of the map records.
pub struct NodeSet<'a> {
    bytes: &'a mut [u8],
    len: usize,
}

impl<'a> NodeSet<'a> {
    /// An empty set in lent bytes, whatever they hold.
    pub fn empty_in(bytes: &'a mut [u8]) -> NodeSet<'a> {
        bytes.fill(0);
        NodeSet { bytes, len: 0 }
    }

    /// Adds a node that has a bit; answers whether it is new.
    pub fn insert(&mut self, number: u32) -> bool {
        let byte = &mut self.bytes[number as usize / 8];
        let bit = 0x80 >> (number % 8);
        if *byte & bit != 0 {
            return false;
        }
        *byte |= bit;
        self.len += 1;
        true
    }

    pub fn len(&self) -> usize {
        self.len
    }

    pub fn bytes(&self) -> &[u8] {
        self.bytes
    }
}
