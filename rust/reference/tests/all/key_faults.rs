//! Which record of a node a key fault is put down to, in full leaves and in a full root.

use crate::lent::check;
use images::bench::{index_with, leaf_with};
use images::node::*;
use images::{Format, Key};
use reference::{Place, Verdict};

const LAST: usize = 21;

fn file_key(file: u32) -> Key {
    Key::new(file, 0x00, 0)
}

/// A root, node 1, over the leaves 2 and 3; record r has file 100 + 2r in one and 200 + 2r in the
/// other, so that leaf 2 starts with 100 and stays below 200, and leaf 3 starts with 200.
fn two_full_leaves() -> Vec<u8> {
    let fields = HeaderFields {
        depth: 2,
        root: 1,
        leaf_records: 44,
        first_leaf: 2,
        last_leaf: 3,
        total: 4,
        ..HeaderFields::default()
    };
    let record = |file| Record { key: file_key(file), data: vec![0; 12] };
    let from = |first: u32| (0..22).map(|index| record(first + 2 * index)).collect::<Vec<_>>();
    let pointers = [(100, 2), (200, 3)].map(|(file, child)| Pointer { key: file_key(file), child });
    let mut nodes = [[0; 512]; 4];
    write_header(Format::HFS, &mut nodes[0], &fields);
    nodes[0][HEADER_MAP_AT] = 0b1111_0000;
    let descriptor = |forward, back, level| Descriptor { forward, back, level };
    write_index(Format::HFS, &mut nodes[1], descriptor(0, 0, 2), &pointers);
    write_leaf(Format::HFS, &mut nodes[2], descriptor(3, 0, 1), &from(100));
    write_leaf(Format::HFS, &mut nodes[3], descriptor(0, 2, 1), &from(200));
    nodes.concat()
}

fn set_key(image: &mut [u8], at: usize, file: u32) {
    image[at..at + 8].copy_from_slice(&file_key(file).bytes());
}

fn fault(node: u32, offset: usize) -> Verdict {
    Verdict { number: 6, place: Place { node, offset: offset as u32 } }
}

/// The verdict after other files in some records of leaf 2 or 3.
fn with_files(leaf: usize, files: &[(usize, u32)]) -> Verdict {
    let mut image = two_full_leaves();
    for &(record, file) in files {
        set_key(&mut image, leaf * 512 + 14 + 20 * record, file);
    }
    check(&image)
}

#[test]
fn unchanged() {
    assert_eq!(
        check(&two_full_leaves()),
        Verdict { number: 0, place: Place { node: 0, offset: 0 } }
    );
    // The gaps between the files are within all rules, but not before the first.
    for record in 1..22 {
        assert_eq!(with_files(2, &[(record, 101 + 2 * record as u32)]).number, 0);
    }
    assert_eq!(with_files(2, &[(LAST, 199)]).number, 0);
    assert_eq!(with_files(3, &[(LAST, u32::MAX)]).number, 0);
}

#[test]
fn equal_keys_in_a_root_that_is_a_leaf() {
    for record in 1..22 {
        // Records have files from 1; the pair gets the lower or the higher of its two.
        for (changed, file) in [(record, record as u32), (record - 1, record as u32 + 1)] {
            let mut image = leaf_with(22);
            set_key(&mut image, 512 + 14 + 20 * changed, file);
            assert_eq!(check(&image), fault(1, 14 + 20 * record), "{changed} is {file}");
        }
    }
}

#[test]
fn equal_keys_in_a_root_over_leaves() {
    for record in 1..35 {
        for (changed, file) in [(record, record as u32), (record - 1, record as u32 + 1)] {
            let mut image = index_with(35);
            set_key(&mut image, 512 + 14 + 12 * changed, file);
            assert_eq!(check(&image), fault(1, 14 + 12 * record), "{changed} is {file}");
        }
    }
}

#[test]
fn equal_keys_below_a_pointer() {
    assert_eq!(with_files(2, &[(1, 100)]), fault(2, 34));
    assert_eq!(with_files(2, &[(LAST, 140)]), fault(2, 434));
    assert_eq!(with_files(2, &[(20, 142)]), fault(2, 434));
    for record in 1..22 {
        let before = 98 + 2 * record as u32;
        assert_eq!(with_files(2, &[(record, before)]), fault(2, 14 + 20 * record));
    }
    for record in 1..21 {
        let next = 102 + 2 * record as u32;
        assert_eq!(with_files(2, &[(record, next)]), fault(2, 14 + 20 * (record + 1)));
    }
    // Raised to the second, the first is unlike its pointer.
    assert_eq!(with_files(2, &[(0, 102)]), fault(2, 14));
}

#[test]
fn a_key_at_the_bound_above() {
    // But for the last, the next record is then below as well, and not above the one before.
    for file in [200, 201, u32::MAX] {
        for record in 0..22 {
            assert_eq!(with_files(2, &[(record, file)]), fault(2, 14 + 20 * record));
        }
    }
}

#[test]
fn keys_in_order_beyond_the_bound_above() {
    for first in 0..22 {
        let files: Vec<_> = (first..22).zip(200..).collect();
        assert_eq!(with_files(2, &files), fault(2, 14 + 20 * first));
    }
}

#[test]
fn a_high_key_without_a_bound_above() {
    // Only the next record shows that a key is too high.
    for record in 1..21 {
        let next = 14 + 20 * (record + 1);
        assert_eq!(with_files(3, &[(record, u32::MAX)]), fault(3, next));
    }
    assert_eq!(with_files(3, &[(0, u32::MAX)]), fault(3, 14));
}

#[test]
fn a_key_below_the_pointer() {
    for record in 0..22 {
        assert_eq!(with_files(2, &[(record, 99)]), fault(2, 14 + 20 * record));
        assert_eq!(with_files(3, &[(record, 0)]), fault(3, 14 + 20 * record));
    }
}

#[test]
fn a_first_key_unlike_its_pointer() {
    for file in [99, 101] {
        assert_eq!(with_files(2, &[(0, file)]), fault(2, 14));
        // Whatever comes after it: a key below the one before, or one at the bound.
        for record in 1..22 {
            assert_eq!(with_files(2, &[(0, file), (record, 50)]), fault(2, 14));
            assert_eq!(with_files(2, &[(0, file), (record, 200)]), fault(2, 14));
        }
    }
}

#[test]
fn of_two_faults_the_first_in_record_order() {
    for first in 1..21 {
        let offset = 14 + 20 * first;
        for second in first + 1..22 {
            assert_eq!(with_files(2, &[(first, 50), (second, 49)]), fault(2, offset));
            // Equal to the one before, which only the order forbids, and then at the bound.
            let before = 98 + 2 * first as u32;
            assert_eq!(with_files(2, &[(first, before), (second, 200)]), fault(2, offset));
            assert_eq!(with_files(2, &[(first, 50), (second, 200)]), fault(2, offset));
            assert_eq!(with_files(2, &[(first, 200), (second, 50)]), fault(2, offset));
            assert_eq!(with_files(2, &[(first, 201), (second, 200)]), fault(2, offset));
        }
    }
}
