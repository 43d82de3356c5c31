//! Lays rows down in targets that held something else.

use images::rows::Row;
use images::{Key, Record};
use reference::{write_tree, Place, Verdict};

/// Bytes of which none is zero and no two neighbours are alike.
pub fn pattern(len: usize) -> Vec<u8> {
    (0..len).map(|at| (at % 251) as u8 + 1).collect()
}

/// The image that is written of a row in so many nodes.
#[track_caller]
pub fn written(row: &[u8], nodes: usize) -> Vec<u8> {
    let mut target = pattern(nodes * 512);
    assert_eq!(write_tree(row, &mut target), Verdict::SOUND);
    target
}

/// The row is refused with the number, and a target of so many bytes stays as it was.
#[track_caller]
pub fn refuses(row: &[u8], target_len: usize, number: u32) {
    let mut target = pattern(target_len);
    let place = Place { node: 0, offset: 0 };
    assert_eq!(write_tree(row, &mut target), Verdict { number, place });
    assert!(target == pattern(target_len), "the target was touched");
}

/// Records of the data forks of the files from 1 on; their data say which they are.
pub fn numbered(count: usize) -> Row {
    let record = |file: u32| Record { key: Key::new(file, 0x00, 0), data: data_of(file).to_vec() };
    Row::of((1..).take(count).map(record).collect())
}

pub fn data_of(file: u32) -> [u8; 12] {
    let mut data = [0xDA; 12];
    data[8..].copy_from_slice(&file.to_be_bytes());
    data
}
