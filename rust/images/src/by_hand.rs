//! A three-level tree laid out by hand, so that its node numbers can be named in tests.

use crate::format::Format;
use crate::key::Key;
use crate::node::*;

/// Eleven nodes: header 0, root 1, index nodes 2 and 3, leaves 4 to 7, free 8 and 9, map node 10.
///
/// All keys are of data forks from block 0, so a file number stands for its key:
///
/// ```text
///                 1: 10 50
///        2: 10 30          3: 50 70
///   4: 10 20  5: 30 40  6: 50 60  7: 70 80
/// ```
///
/// Every pointer has the first key of its child, so that 10 and 50 stand on all three levels.
pub fn three_levels_by_hand() -> Vec<u8> {
    three_levels_by_hand_in(Format::HFS)
}

/// The same tree in any format; every data byte of a record is its file number.
pub fn three_levels_by_hand_in(format: Format) -> Vec<u8> {
    let mut image = Image { format, bytes: vec![0; 11 * format.node_size] };
    write_header(format, image.node(0), &HEADER);
    write_map(format, image.node(10), 0);
    image.put_index(1, (0, 0, 3), [(10, 2), (50, 3)]);
    image.put_index(2, (0, 3, 2), [(10, 4), (30, 5)]);
    image.put_index(3, (2, 0, 2), [(50, 6), (70, 7)]);
    image.put_leaf(4, (0, 5), [10, 20]);
    image.put_leaf(5, (4, 6), [30, 40]);
    image.put_leaf(6, (5, 7), [50, 60]);
    image.put_leaf(7, (6, 0), [70, 80]);
    // Bits 0 to 7, and bit 10 for the map node.
    image.bytes[HEADER_MAP_AT] = 0b1111_1111;
    image.bytes[HEADER_MAP_AT + 1] = 0b0010_0000;
    image.bytes
}

/// The key that stands for a file number in the tree by hand.
pub fn file_key(file: u32) -> Key {
    Key::new(file, 0x00, 0)
}

/// The data of a file's record in the HFS tree by hand.
pub fn file_data(file: u32) -> [u8; 12] {
    [file as u8; 12]
}

const HEADER: HeaderFields = HeaderFields {
    forward: 10,
    depth: 3,
    root: 1,
    leaf_records: 8,
    first_leaf: 4,
    last_leaf: 7,
    total: 11,
    free: 2,
};

type IndexPosition = (u32, u32, u8);

struct Image {
    format: Format,
    bytes: Vec<u8>,
}

impl Image {
    fn node(&mut self, number: usize) -> &mut [u8] {
        let size = self.format.node_size;
        &mut self.bytes[number * size..(number + 1) * size]
    }

    fn put_index(&mut self, number: usize, position: IndexPosition, pointers: [(u32, u32); 2]) {
        let (back, forward, level) = position;
        let pointers = pointers.map(|(file, child)| Pointer { key: file_key(file), child });
        let descriptor = Descriptor { forward, back, level };
        write_index(self.format, self.node(number), descriptor, &pointers);
    }

    fn put_leaf(&mut self, number: usize, (back, forward): (u32, u32), files: [u32; 2]) {
        let data = |file| vec![file as u8; self.format.data_size()];
        let records = files.map(|file| Record { key: file_key(file), data: data(file) });
        let descriptor = Descriptor { forward, back, level: 1 };
        write_leaf(self.format, self.node(number), descriptor, &records);
    }
}
