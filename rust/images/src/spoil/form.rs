//! Number 5: faults in the form of a tree node.

use super::family::{visit_order, Member};
use super::keys::KeyFaults;
use super::{Moment, Patch, Place, Spoiling, Stage, Step};
use crate::build::Built;
use crate::node::*;

pub fn spoilings<K: KeyFaults>(built: &Built<K>) -> Vec<Spoiling> {
    let mut found = wrong_depths(built);
    found.extend(levels_from_the_root(built));
    for (visit, &member) in visit_order(built).iter().enumerate() {
        let faults = descriptor_faults(built, member)
            .into_iter()
            .chain(offset_faults(built, member))
            .chain(K::unlawful(built, member));
        let number = member.number(built);
        found
            .extend(faults.map(|(what, patch)| spoiling(what, number, number, visit, vec![patch])));
    }
    found
}

/// A wrong depth is not the root's level. Where all levels agree with it, leaves are looked for on
/// the wrong level, first at the left end.
fn wrong_depths<K>(built: &Built<K>) -> Vec<Spoiling> {
    let depth = built.depth();
    let mut wrong = Vec::new();
    if (1..8).contains(&depth) {
        wrong.push(("one_over", depth + 1, depth - 1));
    }
    if depth > 1 {
        wrong.push(("one_short", depth - 1, depth - 2));
    }
    let mut found = Vec::new();
    for (how, wrong_depth, visit) in wrong {
        let root = built.levels[0].numbers[0];
        let mut patches = vec![Patch::word(14, wrong_depth as u16)];
        found.push(spoiling(format!("header_depth_{how}"), 0, root, 0, patches.clone()));
        let first = built.levels[visit].numbers[0];
        patches.extend(relevelled(built, |index| (wrong_depth - index) as u8));
        found.push(spoiling(format!("depth_and_levels_{how}"), 0, first, visit, patches));
    }
    found
}

/// The levels counted from the root down, from 1; a tree of one level has the right ones.
fn levels_from_the_root<K>(built: &Built<K>) -> Option<Spoiling> {
    if built.depth() < 2 {
        return None;
    }
    let root = built.levels[0].numbers[0];
    let patches = relevelled(built, |index| index as u8 + 1);
    Some(spoiling("levels_from_the_root".to_string(), root, root, 0, patches))
}

/// Other level bytes for all nodes of the tree, by the index of their level from the root.
fn relevelled<K>(built: &Built<K>, level_byte: impl Fn(usize) -> u8) -> Vec<Patch> {
    let mut patches = Vec::new();
    for (index, level) in built.levels.iter().enumerate() {
        for &number in &level.numbers {
            patches
                .push(Patch::byte(number as usize * built.format.node_size + 9, level_byte(index)));
        }
    }
    patches
}

fn descriptor_faults<K>(built: &Built<K>, member: Member) -> Vec<(String, Patch)> {
    let at = member.at(built);
    let level = built.level_byte(member.level);
    let (other_kind, most) = if member.is_leaf(built) {
        (INDEX_KIND, built.format.most_leaf_records())
    } else {
        (LEAF_KIND, built.format.most_index_records())
    };
    let faults = [
        ("kind_other", Patch::byte(at + 8, other_kind)),
        ("kind_header", Patch::byte(at + 8, HEADER_KIND)),
        ("kind_map", Patch::byte(at + 8, MAP_KIND)),
        ("kind_unknown", Patch::byte(at + 8, 0xFE)),
        ("level_one_over", Patch::byte(at + 9, level + 1)),
        ("level_one_short", Patch::byte(at + 9, level - 1)),
        ("count_0", Patch::word(at + 10, 0)),
        ("count_too_many", Patch::word(at + 10, most as u16 + 1)),
        ("count_far_too_many", Patch::word(at + 10, u16::MAX)),
        ("reserved_low_byte", Patch::byte(at + 13, 1)),
        ("reserved_high_byte", Patch::byte(at + 12, 1)),
    ];
    faults.map(|(what, patch)| (what.to_string(), patch)).into()
}

/// One fault in every offset word, that of the free space included.
fn offset_faults<K: KeyFaults>(built: &Built<K>, member: Member) -> Vec<(String, Patch)> {
    let starts = member.starts(built).into_iter().enumerate();
    starts
        .map(|(record, start)| {
            let at = member.at(built) + built.format.node_size - 2 - 2 * record;
            (format!("offset_{record}"), Patch::word(at, start as u16 + 1))
        })
        .collect()
}

fn spoiling(
    what: String,
    edited: u32,
    at_fault: u32,
    visit: usize,
    patches: Vec<Patch>,
) -> Spoiling {
    let place = Place::of_node(at_fault);
    let moment = Moment::at(Stage::Tree, visit as u32, Step::Form);
    Spoiling { what, edited, number: 5, place, moment, patches }
}
