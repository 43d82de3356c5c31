//! Number 2: faults of the header node.

use super::{Moment, Patch, Place, Spoiling, Stage};
use crate::build::Built;
use crate::format::{Format, PLUS_NODE_SIZES};

pub fn spoilings<K>(built: &Built<K>) -> Vec<Spoiling> {
    let mut found = start_faults();
    found.extend(wrong_node_sizes(built.format).into_iter().map(|size| {
        let what = format!("header_node_size_{size}");
        spoiling(&what, Patch::word(32, size))
    }));
    found.extend(built.format.by_tree(built.format.by_edition([6, 37], [7, 11]), [7, 36]).map(
        |length| {
            let what = format!("header_key_length_{length}");
            spoiling(&what, Patch::word(34, length))
        },
    ));
    let total = built.total();
    found.push(spoiling("header_total_one_over", Patch::long(36, total + 1)));
    found.push(spoiling("header_total_one_short", Patch::long(36, total - 1)));
    found.push(spoiling("header_total_high_byte", Patch::byte(36, 0x80)));
    let node_size = built.format.node_size;
    found.extend((node_size - 8..node_size).map(|at| {
        let what = format!("header_offset_byte_{at}");
        spoiling(&what, Patch::byte(at, built.image[at] ^ 0x01))
    }));
    found.extend(if built.depth() == 0 {
        tree_fields_without_tree()
    } else {
        vec![spoiling("header_depth_0_over_a_tree", Patch::word(14, 0))]
    });
    found
}

/// Faults before the sizes, which are the same in every format.
fn start_faults() -> Vec<Spoiling> {
    vec![
        spoiling("header_back_link_1", Patch::long(4, 1)),
        spoiling("header_kind_index", Patch::byte(8, 0x00)),
        spoiling("header_kind_map", Patch::byte(8, 0x02)),
        spoiling("header_kind_leaf", Patch::byte(8, 0xFF)),
        spoiling("header_level_1", Patch::byte(9, 1)),
        spoiling("header_count_2", Patch::word(10, 2)),
        spoiling("header_count_4", Patch::word(10, 4)),
        spoiling("header_count_high_byte", Patch::byte(10, 1)),
        spoiling("header_reserved_low_byte", Patch::byte(13, 1)),
        spoiling("header_reserved_high_byte", Patch::byte(12, 1)),
        spoiling("header_depth_9", Patch::word(14, 9)),
        spoiling("header_depth_high_byte", Patch::byte(14, 1)),
    ]
}

/// Sizes that are not the one meant: those of HFS Plus, and a number that is no size at all.
fn wrong_node_sizes(format: Format) -> Vec<u16> {
    let right = format.node_size as u16;
    let listed = PLUS_NODE_SIZES.map(|size| size as u16).into_iter();
    let others: Vec<u16> = listed.filter(|&size| size != right).collect();
    let others = format.by_edition(vec![1_024], others);
    [vec![right - 1], others].concat()
}

/// At depth 0 all four fields that lead into the tree are 0.
fn tree_fields_without_tree() -> Vec<Spoiling> {
    vec![
        spoiling("depth_0_root_1", Patch::long(16, 1)),
        spoiling("depth_0_leaf_records_1", Patch::long(20, 1)),
        spoiling("depth_0_first_leaf_1", Patch::long(24, 1)),
        spoiling("depth_0_last_leaf_1", Patch::long(28, 1)),
    ]
}

fn spoiling(what: &str, patch: Patch) -> Spoiling {
    Spoiling {
        what: what.to_string(),
        edited: 0,
        number: 2,
        place: Place::START,
        moment: Moment::once(Stage::Header),
        patches: vec![patch],
    }
}
