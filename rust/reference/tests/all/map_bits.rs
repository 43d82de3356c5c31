//! Which byte a wrong map bit is put down to, along chains whose node numbers do not ascend.

use crate::lent::check;
use images::bench::empty_tree;
use images::node::{put32, put_node, write_map};
use images::Format;
use reference::{Place, Verdict};

/// The map nodes in the order of the chain.
const CHAIN: [u32; 3] = [3, 1, 2];

/// Gives an empty tree a chain of map nodes; the bits of the map nodes are not set yet.
fn with_chain(total: u32, chain: &[u32]) -> Vec<u8> {
    let mut image = empty_tree(total);
    put32(&mut image, 0, chain[0]);
    put32(&mut image, 40, total - 1 - chain.len() as u32);
    for (index, &number) in chain.iter().enumerate() {
        let mut node = [0; 512];
        write_map(Format::HFS, &mut node, chain.get(index + 1).copied().unwrap_or(0));
        put_node(&mut image, number, &node);
    }
    image
}

/// Four nodes: the header and three map nodes, with 2,048 and three times 3,952 bits.
fn four_map_records() -> Vec<u8> {
    let mut image = with_chain(4, &CHAIN);
    image[0xF8] = 0b1111_0000;
    image
}

/// Node and offset of every map byte, in the order of the bits.
fn map_bytes() -> Vec<(u32, u32)> {
    let mut bytes: Vec<(u32, u32)> = (0xF8..=0x1F7).map(|offset| (0, offset)).collect();
    for number in CHAIN {
        bytes.extend((0x0E..=0x1FB).map(|offset| (number, offset)));
    }
    bytes
}

fn flip(image: &mut [u8], (node, offset): (u32, u32), bit: u32) {
    image[node as usize * 512 + offset as usize] ^= 0x80 >> bit;
}

fn wrong_at((node, offset): (u32, u32)) -> Verdict {
    Verdict { number: 9, place: Place { node, offset } }
}

#[test]
fn every_map_bit() {
    let sound = four_map_records();
    assert_eq!(check(&sound), Verdict { number: 0, place: Place { node: 0, offset: 0 } });
    assert_eq!(map_bytes().len(), 256 + 3 * 494);
    for byte in map_bytes() {
        for bit in 0..8 {
            let mut image = sound.clone();
            flip(&mut image, byte, bit);
            assert_eq!(check(&image), wrong_at(byte), "bit {bit} of {byte:?}");
        }
    }
}

#[test]
fn two_wrong_bits_in_different_bytes() {
    // Both ends and a middle of each record, in the order of the bits.
    let mut bytes = vec![(0, 0xF8), (0, 0x150), (0, 0x1F7)];
    bytes.extend([(3, 0x0E), (3, 0x100), (3, 0x1FB)]);
    bytes.extend([(1, 0x0E), (1, 0x100), (1, 0x1FB)]);
    bytes.extend([(2, 0x0E), (2, 0x100), (2, 0x1FB)]);
    for (index, &lower) in bytes.iter().enumerate() {
        for &higher in &bytes[index + 1..] {
            let mut image = four_map_records();
            // In its byte, the lower bit is the last and the higher one the first.
            flip(&mut image, lower, 7);
            flip(&mut image, higher, 0);
            assert_eq!(check(&image), wrong_at(lower), "{lower:?} and {higher:?}");
        }
    }
}

#[test]
fn ever_more_wrong_bits_from_the_end_on() {
    let mut image = four_map_records();
    for byte in map_bytes().into_iter().rev() {
        flip(&mut image, byte, 3);
        assert_eq!(check(&image), wrong_at(byte));
    }
}

#[test]
fn bits_of_nodes_in_a_map_node() {
    // Bits 0 and 5,999, which is the last of the map node's own record.
    let mut sound = with_chain(6_000, &[5_999]);
    flip(&mut sound, (5_999, 507), 7);
    assert_eq!(check(&sound).number, 0);
    // Bit 2,047 in the header, then 2,048, 4,103 and 5,999 in the map node.
    for (byte, bit) in [((0, 0x1F7), 7), ((5_999, 14), 0), ((5_999, 270), 7), ((5_999, 507), 7)] {
        let mut image = sound.clone();
        flip(&mut image, byte, bit);
        assert_eq!(check(&image), wrong_at(byte), "bit {bit} of {byte:?}");
    }
}

#[test]
fn bits_of_the_last_nodes_there_can_be() {
    // The header and 16 map nodes have 65,280 bits, so the 17th map node, 65,519, has the last 256.
    let chain: Vec<u32> = (65_519..=65_535).rev().collect();
    let mut sound = with_chain(65_536, &chain);
    // The bits of the map nodes themselves: the last of byte 29, and all of bytes 30 and 31.
    let last = 65_519 * 512 + 14;
    sound[last + 29..last + 32].copy_from_slice(&[0x01, 0xFF, 0xFF]);
    assert_eq!(check(&sound).number, 0);
    // Bits 65,279 in the 16th map node, 65,280 and 65,535 in the 17th, and one beyond the last node.
    let wrong = [((65_520, 507), 7), ((65_519, 14), 0), ((65_519, 45), 7), ((65_519, 46), 0)];
    for (byte, bit) in wrong {
        let mut image = sound.clone();
        flip(&mut image, byte, bit);
        assert_eq!(check(&image), wrong_at(byte), "bit {bit} of {byte:?}");
    }
    // Without the 17th there are 256 bits too few.
    let place = Place { node: 65_520, offset: 0 };
    assert_eq!(check(&with_chain(65_536, &chain[..16])), Verdict { number: 3, place });
}
