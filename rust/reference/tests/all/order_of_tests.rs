//! Two faults at once: the answer is the one that the order of tests comes to first.

use crate::formats::{check, verdict};
use images::spoil::{spoilings, Spoiling};
use images::{build, Built, Format, Plan};

/// Whether the second fault leaves the first one standing.
fn independent(a: &Spoiling, b: &Spoiling) -> bool {
    // One moved key can make room for another, and a moved pointer can match a moved first key.
    let both_move_keys = a.number == 6 && b.number == 6;
    // A wrong depth can be right for a wrong level.
    let depth_meets_level = (of_form(a, "depth") && of_form(b, "level"))
        || (of_form(a, "level") && of_form(b, "depth"));
    !a.overlaps(b) && !both_move_keys && !depth_meets_level
}

fn of_form(spoiling: &Spoiling, field: &str) -> bool {
    spoiling.number == 5 && spoiling.what.contains(field)
}

fn assert_first_fault_wins(built: &Built) -> usize {
    assert_first_of_some_wins(built, 1)
}

/// Takes every so many faults, as there are many pairs of them.
fn assert_first_of_some_wins(built: &Built, step: usize) -> usize {
    let known: Vec<Spoiling> = spoilings(built).into_iter().step_by(step).collect();
    let mut pairs = 0;
    for (index, a) in known.iter().enumerate() {
        for b in &known[index + 1..] {
            if independent(a, b) {
                assert_earlier_wins(built, a, b);
                pairs += 1;
            }
        }
    }
    pairs
}

fn assert_earlier_wins(built: &Built, a: &Spoiling, b: &Spoiling) {
    let (earlier, later) = if a.moment <= b.moment { (a, b) } else { (b, a) };
    let mut image = built.image.clone();
    // A wrong length is the earliest fault, so the image is cut after all other changes.
    later.apply(&mut image);
    earlier.apply(&mut image);
    let expected = verdict(earlier.number, earlier.place.node, earlier.place.offset);
    let names = format!("{} and {}", earlier.name(), later.name());
    assert_eq!(check(built.format, &image), expected, "{names}");
}

fn small(seed: u64, level_sizes: &[usize], map_nodes: usize) -> Built {
    small_in(Format::HFS, seed, level_sizes, map_nodes)
}

fn small_in(format: Format, seed: u64, level_sizes: &[usize], map_nodes: usize) -> Built {
    build(&Plan {
        records_per_leaf: 1..=3,
        map_nodes,
        free_nodes: 3,
        ..Plan::untidy_in(format, seed, level_sizes)
    })
}

#[test]
fn empty_tree() {
    assert!(assert_first_fault_wins(&small(1, &[], 2)) > 1_000);
}

#[test]
fn one_leaf() {
    assert!(assert_first_fault_wins(&small(2, &[1], 0)) > 1_000);
}

#[test]
fn two_levels() {
    assert!(assert_first_fault_wins(&small(3, &[1, 3], 1)) > 10_000);
}

#[test]
fn three_levels() {
    assert!(assert_first_fault_wins(&small(4, &[1, 2, 5], 2)) > 10_000);
}

#[test]
fn five_levels() {
    assert!(assert_first_fault_wins(&small(5, &[1, 1, 2, 2, 4], 1)) > 10_000);
}

#[test]
fn hfs_plus_at_every_size() {
    for format in Format::all().skip(1) {
        // Fewer of the larger images, as each pair copies one.
        let step = 1 + format.node_size / 4_096;
        assert!(assert_first_of_some_wins(&small_in(format, 6, &[], 2), step) > 10);
        assert!(assert_first_of_some_wins(&small_in(format, 7, &[1, 2], 1), step) > 100);
    }
}
