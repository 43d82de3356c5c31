//! The tree laid out by hand: changes whose verdicts are worked out from its picture.

use crate::lent::check;
use images::by_hand::{file_key, three_levels_by_hand};
use images::spoil::Patch::{self, *};
use images::Key;
use reference::{Place, Verdict};

const HEADER_MAP: usize = 0xF8;
const MAP_NODE: usize = 10;

fn node(number: usize) -> usize {
    number * 512
}

fn forward(number: usize, link: u32) -> Patch {
    Patch::long(node(number), link)
}

fn back(number: usize, link: u32) -> Patch {
    Patch::long(node(number) + 4, link)
}

fn reserved(number: usize) -> Patch {
    Patch::byte(node(number) + 13, 1)
}

fn level(number: usize, level: u8) -> Patch {
    Patch::byte(node(number) + 9, level)
}

fn root(number: u32) -> Patch {
    Patch::long(16, number)
}

fn child(number: usize, record: usize, child: u32) -> Patch {
    Patch::long(node(number) + 14 + 12 * record + 8, child)
}

fn index_key(number: usize, record: usize, key: Key) -> Patch {
    Patch::bytes(node(number) + 14 + 12 * record, &key.bytes())
}

fn leaf_key(number: usize, record: usize, key: Key) -> Patch {
    Patch::bytes(node(number) + 14 + 20 * record, &key.bytes())
}

fn changed(patches: &[Patch]) -> Vec<u8> {
    let mut image = three_levels_by_hand();
    for patch in patches {
        match patch {
            Write { at, bytes } => image[*at..*at + bytes.len()].copy_from_slice(bytes),
            Resize(len) => image.resize(*len, 0),
        }
    }
    image
}

#[track_caller]
fn gives(patches: &[Patch], number: u32, node: u32, offset: u32) {
    let place = Place { node, offset };
    assert_eq!(check(&changed(patches)), Verdict { number, place });
}

#[track_caller]
fn sound(patches: &[Patch]) {
    gives(patches, 0, 0, 0);
}

#[test]
fn unchanged_and_unjudged() {
    sound(&[]);
    // Nodes 8 and 9 are free; the reserved part of record 1 and all of record 2 hold anything.
    sound(&[Patch::bytes(node(8), &[0xA5; 1024])]);
    sound(&[Patch::bytes(44, &[0xA5; 76 + 128])]);
    // Between the records of leaf 4, which end at 54, and its three offset words.
    sound(&[Patch::bytes(node(4) + 54, &[0xA5; 512 - 54 - 6])]);
    // Data of a leaf record.
    sound(&[Patch::bytes(node(4) + 22, &[0xA5; 12])]);
}

#[test]
fn map_chain() {
    gives(&[forward(0, 11)], 3, 0, 0);
    gives(&[forward(0, 8)], 3, 8, 0);
    gives(&[forward(0, 4)], 3, 4, 0);
    gives(&[forward(MAP_NODE, 10)], 3, 10, 0);
    gives(&[forward(MAP_NODE, 11)], 3, 10, 0);
    gives(&[forward(MAP_NODE, 4)], 3, 4, 0);
    // A map node's fields come before its link.
    gives(&[reserved(MAP_NODE), forward(MAP_NODE, 4)], 3, 10, 0);
}

#[test]
fn map_node_left_out_of_the_chain() {
    let no_link = forward(0, 0);
    let no_bit = Patch::byte(HEADER_MAP + 1, 0);
    let one_more_free = Patch::long(40, 3);
    // Bit 10 is in the second byte of the header's map record.
    gives(std::slice::from_ref(&no_link), 9, 0, 0xF9);
    gives(&[no_link.clone(), no_bit.clone()], 10, 0, 0);
    sound(&[no_link, no_bit, one_more_free]);
}

#[test]
fn child_numbers() {
    // The root's number is at 16 in the header.
    gives(&[root(0)], 4, 0, 16);
    gives(&[root(11)], 4, 0, 16);
    gives(&[root(10)], 4, 0, 16);
    // Those of children are at 22 and 34 in their parents, 8 after the starts of the records.
    gives(&[child(1, 0, 0)], 4, 1, 22);
    gives(&[child(1, 1, 2)], 4, 1, 34);
    gives(&[child(2, 0, 1)], 4, 2, 22);
    gives(&[child(2, 0, 2)], 4, 2, 22);
    gives(&[child(2, 1, 4)], 4, 2, 34);
    gives(&[child(3, 1, 4)], 4, 3, 34);
    gives(&[child(3, 1, 10)], 4, 3, 34);
    gives(&[child(3, 1, 11)], 4, 3, 34);
    gives(&[child(3, 0, 0)], 4, 3, 22);
    // Of two in one node, the left one comes first.
    gives(&[child(3, 0, 0), child(3, 1, 0)], 4, 3, 22);
    // Test 4 waits until the child's turn: all below the child before it comes first.
    gives(&[child(1, 1, 0), reserved(5)], 5, 5, 0);
    gives(&[child(1, 1, 0), reserved(6)], 4, 1, 34);
    gives(&[child(1, 1, 0), child(2, 1, 0)], 4, 2, 34);
}

#[test]
fn nodes_in_the_wrong_place() {
    // A leaf has level 1, but the root must have 3.
    gives(&[root(4)], 5, 4, 0);
    // Free node 8 is all zeros.
    gives(&[child(2, 1, 8)], 5, 8, 0);
    // Leaf 5 under pointer 10 of node 2 must start with 10 and stay below 30.
    gives(&[child(2, 0, 5)], 6, 5, 14);
    // Leaf 6 under pointer 30 of node 2 must start with 30 and stay below 50.
    gives(&[child(2, 1, 6)], 6, 6, 14);
    // Node 3 under pointer 10 of the root must start with 10 and stay below 50.
    gives(&[child(1, 0, 3)], 6, 3, 14);
}

#[test]
fn levels() {
    // The root's level is the depth, each child's one less, the leaves' 1.
    for (number, right) in [(1, 3), (2, 2), (3, 2), (4, 1), (5, 1), (6, 1), (7, 1)] {
        for wrong in (0..=255).filter(|&level| level != right) {
            gives(&[level(number, wrong)], 5, number as u32, 0);
        }
    }
    // Every level of the tree moved along with the depth: what should be an index node is leaf 4,
    // what should be a leaf is node 2.
    let moved = |depth: u16, by: i16| {
        let byte = |number, right: i16| level(number, (right + by) as u8);
        let leaves = (4..=7).map(|number| byte(number, 1));
        let index_nodes = [byte(1, 3), byte(2, 2), byte(3, 2)];
        let depth = [Patch::word(14, depth)];
        depth.into_iter().chain(index_nodes).chain(leaves).collect::<Vec<_>>()
    };
    sound(&moved(3, 0));
    gives(&moved(4, 1), 5, 4, 0);
    gives(&moved(2, -1), 5, 2, 0);
}

#[test]
fn bounds_above() {
    // Set by the parent.
    sound(&[leaf_key(4, 1, file_key(29))]);
    gives(&[leaf_key(4, 1, file_key(30))], 6, 4, 34);
    // Set by the root; leaf 5 is the last child of node 2.
    sound(&[leaf_key(5, 1, file_key(49))]);
    gives(&[leaf_key(5, 1, file_key(50))], 6, 5, 34);
    gives(&[leaf_key(5, 1, file_key(55))], 6, 5, 34);
    // Nothing bounds the last leaf from above.
    sound(&[leaf_key(7, 1, Key::new(u32::MAX, 0xFF, 65_535))]);
    // Pointers are bound as well; leaf 5 starts with its pointer.
    let moved = |first| {
        [
            index_key(2, 1, file_key(first)),
            leaf_key(5, 0, file_key(first)),
            leaf_key(5, 1, Key::new(first, 0xFF, 0)),
        ]
    };
    sound(&moved(49));
    gives(&moved(50), 6, 2, 26);
}

#[test]
fn bounds_below() {
    // A first key stands at its bound, so the next file down is out.
    gives(&[leaf_key(5, 0, file_key(29))], 6, 5, 14);
    gives(&[leaf_key(4, 0, file_key(9))], 6, 4, 14);
    gives(&[index_key(3, 0, file_key(49))], 6, 3, 14);
    // A second key is bound through the first.
    gives(&[leaf_key(5, 1, file_key(29))], 6, 5, 34);
    gives(&[index_key(3, 1, file_key(49))], 6, 3, 26);
    // A pointer that is lowered to a key left of it bounds that key first.
    gives(&[index_key(1, 1, file_key(40))], 6, 5, 34);
    gives(&[index_key(1, 1, file_key(30))], 6, 2, 26);
    gives(&[index_key(2, 1, file_key(20))], 6, 4, 34);
    gives(&[index_key(3, 1, file_key(60))], 6, 6, 34);
}

/// The pointer's key is its child's first key, of this file; other files, the nearest keys and the
/// other fork are faults of the child.
fn pointer_must_match(parent: usize, record: usize, first: u32, others: &[u32], child: u32) {
    let nearest = [Key::new(first - 1, 0xFF, 65_535), Key::new(first, 0x00, 1)];
    let other_fork = [Key::new(first, 0xFF, 0)];
    let others = others.iter().map(|&file| file_key(file));
    for key in others.chain(nearest).chain(other_fork) {
        gives(&[index_key(parent, record, key)], 6, child, 14);
    }
}

#[test]
fn pointers_of_the_root_to_index_nodes() {
    // The lowest file with room, the next below, the next above and one above the child's last.
    pointer_must_match(1, 0, 10, &[0, 9, 11, 31], 2);
    pointer_must_match(1, 1, 50, &[41, 49, 51, 81], 3);
}

#[test]
fn pointers_to_leaves() {
    // The lowest file with room, the next below, the next above, the child's last and one above.
    pointer_must_match(2, 1, 30, &[21, 29, 31, 40, 41], 5);
    pointer_must_match(3, 1, 70, &[61, 69, 71, 80, 81], 7);
}

#[test]
fn first_pointers_of_index_nodes() {
    // Alone, such a pointer is a first key unlike the pointer above it.
    for file in [9, 11] {
        gives(&[index_key(2, 0, file_key(file))], 6, 2, 14);
        gives(&[index_key(1, 0, file_key(file)), index_key(2, 0, file_key(file))], 6, 4, 14);
    }
    for file in [49, 51] {
        gives(&[index_key(3, 0, file_key(file))], 6, 3, 14);
        gives(&[index_key(1, 1, file_key(file)), index_key(3, 0, file_key(file))], 6, 6, 14);
    }
}

#[test]
fn first_keys_of_children() {
    for (number, files) in [(4, [9, 11]), (5, [29, 31]), (6, [49, 51]), (7, [69, 71])] {
        for file in files {
            gives(&[leaf_key(number, 0, file_key(file))], 6, number as u32, 14);
        }
    }
    // A pointer moved along with all that starts with its key is right again.
    sound(&[index_key(3, 1, file_key(61)), leaf_key(7, 0, file_key(61))]);
    sound(&[index_key(3, 1, file_key(79)), leaf_key(7, 0, file_key(79))]);
    for file in [41, 59] {
        let key = file_key(file);
        sound(&[index_key(1, 1, key), index_key(3, 0, key), leaf_key(6, 0, key)]);
    }
}

#[test]
fn the_root_has_no_pointer() {
    for key in [file_key(0), file_key(9), file_key(19)] {
        sound(&[index_key(1, 0, key), index_key(2, 0, key), leaf_key(4, 0, key)]);
    }
}

#[test]
fn order_within_a_node() {
    gives(&[leaf_key(6, 1, file_key(50))], 6, 6, 34);
    gives(&[index_key(1, 1, file_key(10))], 6, 1, 26);
    // A resource fork comes after the data fork of its file, whatever the start.
    let data = Key::new(70, 0x00, 9);
    let resource = Key::new(70, 0xFF, 0);
    let leaf_7 =
        |first, second| [index_key(3, 1, first), leaf_key(7, 0, first), leaf_key(7, 1, second)];
    sound(&leaf_7(data, resource));
    gives(&leaf_7(resource, data), 6, 7, 34);
}

#[test]
fn of_two_key_faults_in_a_node_the_first_counts() {
    // The first key is unlike its pointer; the second is at the bound, equal or below the first.
    gives(&[leaf_key(4, 0, file_key(11)), leaf_key(4, 1, file_key(30))], 6, 4, 14);
    gives(&[leaf_key(4, 0, file_key(11)), leaf_key(4, 1, file_key(11))], 6, 4, 14);
    gives(&[leaf_key(4, 0, file_key(11)), leaf_key(4, 1, file_key(10))], 6, 4, 14);
    // The first key is below its pointer, or at the bound above.
    gives(&[leaf_key(5, 0, file_key(29)), leaf_key(5, 1, file_key(50))], 6, 5, 14);
    gives(&[leaf_key(5, 0, file_key(50)), leaf_key(5, 1, file_key(51))], 6, 5, 14);
    gives(&[index_key(2, 0, file_key(50)), index_key(2, 1, file_key(50))], 6, 2, 14);
    // Equal keys of the root, which has no pointer: the second is at fault whichever was changed.
    gives(&[index_key(1, 0, file_key(50))], 6, 1, 26);
    gives(&[index_key(1, 1, file_key(10))], 6, 1, 26);
    // Of two nodes, the one that is tested first counts.
    gives(&[leaf_key(5, 1, file_key(30)), index_key(3, 0, file_key(51))], 6, 5, 34);
    gives(&[leaf_key(6, 0, file_key(51)), index_key(3, 1, file_key(50))], 6, 3, 26);
}

#[test]
fn form_before_order_before_links() {
    // Both keys are 20 then; the first is unlike its pointer.
    let equal_keys = leaf_key(4, 0, file_key(20));
    let key_length = Patch::byte(node(4) + 14 + 20, 6);
    gives(&[equal_keys.clone(), key_length], 5, 4, 0);
    gives(&[equal_keys, back(4, 1)], 6, 4, 14);
    // A first key unlike its pointer comes after all of the form and before all of the links.
    let raised = leaf_key(5, 0, file_key(31));
    gives(&[raised.clone(), reserved(5)], 5, 5, 0);
    gives(&[raised.clone(), back(5, 0)], 6, 5, 14);
    gives(&[raised, forward(4, 0)], 6, 5, 14);
    // Each node comes before its children, and all below it before the next.
    let lowered = index_key(1, 1, file_key(49));
    gives(&[lowered.clone(), reserved(5)], 5, 5, 0);
    gives(&[lowered, reserved(6)], 6, 3, 14);
}

#[test]
fn links() {
    // The back link is at 4 in the node, the forward link at 0.
    gives(&[back(1, 1)], 7, 1, 4);
    gives(&[back(4, 5)], 7, 4, 4);
    gives(&[back(6, 4)], 7, 6, 4);
    gives(&[back(6, 0)], 7, 6, 4);
    gives(&[back(3, 0)], 7, 3, 4);
    gives(&[forward(5, 7)], 7, 5, 0);
    gives(&[forward(2, 0)], 7, 2, 0);
    // The last of each level.
    gives(&[forward(1, 1)], 7, 1, 0);
    gives(&[forward(3, 2)], 7, 3, 0);
    gives(&[forward(7, 4)], 7, 7, 0);
}

#[test]
fn order_of_link_tests() {
    // At leaf 6: first its own back link, then the forward link of leaf 5.
    gives(&[forward(5, 7), back(6, 4)], 7, 6, 4);
    // The forward link of leaf 6 waits for leaf 7, and that of leaf 7 for the end.
    gives(&[forward(6, 0), back(6, 4)], 7, 6, 4);
    gives(&[forward(7, 4), back(7, 0)], 7, 7, 4);
    gives(&[forward(6, 0), forward(7, 4)], 7, 6, 0);
    // The forward link of node 2 is looked at from node 3, after the leaves 4 and 5.
    gives(&[forward(2, 0), reserved(5)], 5, 5, 0);
    gives(&[forward(2, 0), back(5, 0)], 7, 5, 4);
    gives(&[forward(2, 0), reserved(3)], 5, 3, 0);
    gives(&[forward(2, 0), reserved(6)], 7, 2, 0);
    // The ends of the levels come after the whole walk, from the root down.
    gives(&[forward(1, 5), reserved(7)], 5, 7, 0);
    gives(&[forward(1, 5), forward(3, 2), forward(7, 4)], 7, 1, 0);
    gives(&[forward(3, 2), forward(7, 4)], 7, 3, 0);
}

#[test]
fn totals_bits_and_free_count() {
    let leaf_records = Patch::long(20, 7);
    let free = Patch::long(40, 3);
    let bit_8_set = Patch::byte(HEADER_MAP + 1, 0b1010_0000);
    gives(&[leaf_records.clone(), bit_8_set.clone(), free.clone()], 8, 0, 0);
    gives(&[bit_8_set.clone(), free.clone()], 9, 0, 0xF9);
    gives(&[free], 10, 0, 0);
    gives(&[Patch::long(24, 5)], 8, 0, 0);
    gives(&[Patch::long(28, 6)], 8, 0, 0);
    // The links are tested before the totals, the totals before the bits.
    gives(&[forward(7, 4), leaf_records.clone()], 7, 7, 0);
    gives(&[leaf_records, bit_8_set], 8, 0, 0);
}

#[test]
fn lowest_wrong_bit() {
    // Bit 3 is cleared and bit 9 set; 3 is the lower.
    let both = Patch::bytes(HEADER_MAP, &[0b1110_1111, 0b0110_0000]);
    gives(&[both], 9, 0, 0xF8);
    // Two wrong bits in one byte.
    gives(&[Patch::byte(HEADER_MAP + 1, 0b0000_0001)], 9, 0, 0xF9);
    gives(&[Patch::byte(HEADER_MAP + 1, 0b0110_0001)], 9, 0, 0xF9);
    // Bits beyond the last node: the next one, and the ends of both map records.
    let header_end = Patch::byte(HEADER_MAP + 255, 0b0000_0001);
    let node_start = Patch::byte(node(MAP_NODE) + 14, 0b1000_0000);
    let node_end = Patch::byte(node(MAP_NODE) + 14 + 493, 0b0000_0001);
    gives(&[Patch::byte(HEADER_MAP + 1, 0b0011_0000)], 9, 0, 0xF9);
    gives(std::slice::from_ref(&header_end), 9, 0, 0x1F7);
    gives(std::slice::from_ref(&node_start), 9, 10, 14);
    gives(std::slice::from_ref(&node_end), 9, 10, 507);
    // In both records, and at both ends of one.
    gives(&[node_start.clone(), header_end], 9, 0, 0x1F7);
    gives(&[node_end, node_start], 9, 10, 14);
}
