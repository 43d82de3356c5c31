//! Spoiled images in every format: each gives its number, and the place that the table has for it.

use crate::formats::table::assert_refused;
use crate::formats::{check, SOUND};
use images::spoil::{by_number, harmless, spoilings};
use images::{build, samples, Built, Format, Plan};

/// A few records a leaf, as there is a spoiling or more for every record.
fn small_tree(format: Format, depth: usize) -> Built {
    let plan = Plan { map_nodes: 2, ..Plan::random_in(format, 720, depth, 3) };
    build(&Plan { records_per_leaf: 1..=4, noise: true, ..plan })
}

#[test]
fn small_trees_spoiled_in_every_way() {
    for format in Format::all() {
        for depth in 0..=4 {
            let built = small_tree(format, depth);
            for spoiling in spoilings(&built) {
                assert_refused(&built, &spoiling);
            }
        }
    }
}

#[test]
fn full_leaves_spoiled_here_and_there() {
    for format in Format::all() {
        let built = build(&Plan { map_nodes: 1, ..Plan::tidy_in(format, 721, &[1, 4]) });
        for number in 1..=10 {
            let known = by_number(&built, number);
            let step = known.len().div_ceil(60);
            for spoiling in known.iter().step_by(step).chain(known.last()) {
                assert_refused(&built, spoiling);
            }
        }
    }
}

#[test]
fn samples_spoiled_in_every_way() {
    for built in [samples::two_level_plus(), samples::three_level_plus()] {
        for spoiling in spoilings(&built) {
            assert_refused(&built, &spoiling);
        }
    }
}

/// What the request adds to the faults of HFS.
#[test]
fn faults_of_hfs_plus_occur_at_every_size() {
    let wanted = [
        (2, "header_key_length_7"),
        (3, "map_free_offset"),
        (5, "count_too_many"),
        (5, "key_length_7_of_0"),
        (5, "key_length_in_one_byte_of_0"),
        (5, "fork_and_pad_swapped_of_0"),
    ];
    for format in Format::all().skip(1) {
        let built = small_tree(format, 2);
        for (number, what) in wanted {
            let known = by_number(&built, number);
            assert!(known.iter().any(|known| known.what == what), "{what} in {format:?}");
        }
        let known = by_number(&built, 2);
        let sizes = known.iter().filter(|known| known.what.starts_with("header_node_size_"));
        // The six other sizes of HFS Plus, and one that is none.
        assert_eq!(sizes.count(), 7, "{format:?}");
    }
}

#[test]
fn bytes_that_no_rule_judges() {
    for format in Format::all() {
        for depth in 0..=3 {
            let built = small_tree(format, depth);
            let known = harmless(&built);
            let pads = known.iter().filter(|known| known.what.starts_with("pad_of_")).count();
            assert_eq!(pads > 0, format != Format::HFS && depth > 0, "{format:?}");
            for change in known {
                let mut image = built.image.clone();
                change.apply(&mut image);
                assert_eq!(check(format, &image), SOUND, "{format:?} {}", change.name());
            }
        }
    }
}
