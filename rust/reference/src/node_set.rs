//! Which nodes have been met so far.

/// A set of node numbers, kept as a bitmap in the bit order of the map records.
pub struct NodeSet<'a> {
    bytes: &'a mut [u8],
    len: usize,
}

impl<'a> NodeSet<'a> {
    /// An empty set in lent bytes, whatever they hold; it has room for eight nodes in each.
    pub fn new(bytes: &'a mut [u8]) -> NodeSet<'a> {
        bytes.fill(0);
        NodeSet { bytes, len: 0 }
    }

    /// Adds a node; answers false if it was there already.
    pub fn insert(&mut self, number: u32) -> bool {
        let byte = &mut self.bytes[number as usize / 8];
        let bit = 0x80 >> (number % 8);
        if *byte & bit != 0 {
            return false;
        }
        *byte |= bit;
        self.len += 1;
        true
    }

    pub fn len(&self) -> usize {
        self.len
    }

    pub fn bytes(&self) -> &[u8] {
        self.bytes
    }
}
