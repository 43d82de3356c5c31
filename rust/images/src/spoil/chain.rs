//! Number 3: faults of the map chain.

use super::{Moment, Patch, Place, Spoiling, Stage, Step};
use crate::build::Built;
use crate::format::Format;

pub fn spoilings<K>(built: &Built<K>) -> Vec<Spoiling> {
    let mut found = Vec::from_iter(header_to_tree(built));
    // Turn n of the chain is the link of its n-th node, the header being node 0 of the chain.
    found.extend(links(built, 0, 0));
    for (index, &number) in built.map_chain.iter().enumerate() {
        let turn = index as u32;
        found.extend(fields(built.format, number, turn));
        found.extend(links(built, number, turn + 1));
        found.push(ring(built, number, turn + 1));
    }
    found
}

/// The linked node is at fault if it is no map node.
fn header_to_tree<K>(built: &Built<K>) -> Option<Spoiling> {
    let root = built.levels.first()?.numbers[0];
    let moment = Moment::at(Stage::Chain, 0, Step::Link);
    let patch = Patch::long(0, root);
    Some(spoiling("map_link_to_root", 0, root, moment, patch))
}

/// A node with a link out of range, or with none where more bits are needed, is itself at fault.
fn links<K>(built: &Built<K>, number: u32, turn: u32) -> Vec<Spoiling> {
    let at = number as usize * built.format.node_size;
    let moment = Moment::at(Stage::Chain, turn, Step::Link);
    let total = built.total();
    let mut found = vec![
        spoiling("map_link_to_total", number, number, moment, Patch::long(at, total)),
        spoiling("map_link_far_out", number, number, moment, Patch::long(at, u32::MAX)),
    ];
    let bits = built.format.header_bits() + turn as usize * built.format.map_node_bits();
    if bits < total as usize {
        found.push(spoiling("map_chain_cut", number, number, moment, Patch::long(at, 0)));
    }
    found
}

/// A link to a node already in the chain is the fault of the node that has it.
fn ring<K>(built: &Built<K>, number: u32, turn: u32) -> Spoiling {
    let at = number as usize * built.format.node_size;
    let moment = Moment::at(Stage::Chain, turn, Step::Link);
    let first = built.map_chain[0];
    let what = if first == number { "map_link_to_itself" } else { "map_link_to_first_map_node" };
    spoiling(what, number, number, moment, Patch::long(at, first))
}

fn fields(format: Format, number: u32, turn: u32) -> Vec<Spoiling> {
    let at = number as usize * format.node_size;
    let end = at + format.node_size;
    let free_of_other_edition = format.node_size - format.by_edition(6, 4);
    let moment = Moment::at(Stage::Chain, turn, Step::LinkedNode);
    let faults = [
        ("map_back_link_1", Patch::long(at + 4, 1)),
        ("map_kind_header", Patch::byte(at + 8, 0x01)),
        ("map_kind_leaf", Patch::byte(at + 8, 0xFF)),
        ("map_level_1", Patch::byte(at + 9, 1)),
        ("map_count_0", Patch::word(at + 10, 0)),
        ("map_count_2", Patch::word(at + 10, 2)),
        ("map_reserved_low_byte", Patch::byte(at + 13, 1)),
        ("map_reserved_high_byte", Patch::byte(at + 12, 1)),
        ("map_free_offset", Patch::word(end - 4, free_of_other_edition as u16)),
        ("map_first_offset", Patch::word(end - 2, 0x000F)),
    ];
    faults.map(|(what, patch)| spoiling(what, number, number, moment, patch)).into()
}

fn spoiling(what: &str, edited: u32, at_fault: u32, moment: Moment, patch: Patch) -> Spoiling {
    Spoiling {
        what: what.to_string(),
        edited,
        number: 3,
        place: Place::of_node(at_fault),
        moment,
        patches: vec![patch],
    }
}
