//! Spoiled catalogs: each gives its number, and the place that the table has for it.

use images::catalog::{bench, build, samples, Built, CatalogPlan};
use images::spoil::{by_number, harmless, spoilings, Spoiling};
use reference::catalog::{check, lookup, salvage};
use reference::{needed_work, Answer, Place, Verdict};
use std::collections::BTreeSet;

fn verdict_of(spoiling: &Spoiling) -> Verdict {
    let Spoiling { number, place, .. } = *spoiling;
    Verdict { number, place: Place { node: place.node, offset: place.offset } }
}

/// A check and a lookup give the fault, and leave zeros where they worked.
fn assert_refused(built: &Built, spoiling: &Spoiling) {
    let mut image = built.image.clone();
    spoiling.apply(&mut image);
    let (fault, name) = (verdict_of(spoiling), spoiling.name());
    let needed = needed_work(image.len());
    let lent = vec![0xA5; needed + 3];
    let left = match fault.number {
        1 => lent.clone(),
        _ => [vec![0; needed], vec![0xA5; 3]].concat(),
    };
    let mut work = lent.clone();
    assert_eq!(check(&image, &mut work), fault, "{name}");
    assert!(work == left, "{name}");
    let mut work = lent.clone();
    let Verdict { number, place } = fault;
    let answer = lookup(&image, 2, b"Heights", &mut work).answer;
    assert_eq!(answer, Answer::Refused { number, place }, "{name}");
    assert!(work == left, "{name}");
    if fault.number != 1 {
        let mut work = lent[..needed - 1].to_vec();
        assert_eq!(check(&image, &mut work).number, 16, "{name}");
        assert!(work == lent[..needed - 1], "{name}");
    }
}

#[test]
fn random_trees_spoiled_in_every_way() {
    for depth in 0..=6 {
        for seed in 200..206 {
            let built = build(&CatalogPlan::random(seed, depth, 6));
            for spoiling in spoilings(&built) {
                assert_refused(&built, &spoiling);
            }
        }
    }
}

#[test]
fn samples_spoiled_in_every_way() {
    for built in [samples::two_level(), samples::three_level()] {
        let mut names = BTreeSet::new();
        for spoiling in spoilings(&built) {
            assert_refused(&built, &spoiling);
            assert!(names.insert(spoiling.name()), "{} twice", spoiling.name());
        }
        for number in 1..=10 {
            assert!(!by_number(&built, number).is_empty(), "number {number}");
        }
    }
}

#[test]
fn every_rule_of_the_catalog_is_broken() {
    let wanted = [
        (2, "header_key_length_7"),
        (2, "header_key_length_36"),
        (5, "key_length_counts_the_pad_of_0"),
        (5, "both_lengths_one_over_of_0"),
        (5, "key_length_as_in_an_index_of_0"),
        (5, "key_length_as_in_a_leaf_of_0"),
        (5, "data_at_odd_offset_of_0"),
        (5, "type_0_on_70_bytes_of_0"),
        (5, "type_5_on_102_bytes_of_0"),
        (5, "type_2_on_70_bytes_of_0"),
        (5, "type_1_on_102_bytes_of_0"),
        (5, "type_3_on_70_bytes_of_0"),
        (5, "name_of_32_bytes_of_0"),
        (5, "name_length_32_of_0"),
        (5, "nine_records"),
        (5, "twelve_records"),
        (5, "record_into_offset_words"),
        (6, "key_1_equal_to_the_one_before"),
        (6, "key_1_a_twin_of_the_one_before"),
        (6, "key_1_a_prefix_of_the_one_before"),
        (6, "key_1_above_the_one_before_by_bytes_only"),
        (6, "key_1_above_the_one_before_by_sign_only"),
        (6, "key_0_twin_of_next_pointer"),
        (6, "pointer_1_prefix_of_first_key"),
        (6, "pointer_1_below_first_key"),
        (6, "pointer_1_above_first_key"),
        (6, "first_key_above_pointer"),
    ];
    let trees = (300..340).map(|seed| build(&CatalogPlan::random(seed, 3, 20)));
    let known: BTreeSet<(u32, String)> = trees
        .flat_map(|built| spoilings(&built))
        .map(|spoiling| (spoiling.number, spoiling.what))
        .collect();
    for (number, what) in wanted {
        assert!(known.contains(&(number, what.to_string())), "{what}");
    }
}

#[test]
fn bytes_that_no_rule_judges() {
    let mut known = BTreeSet::new();
    for seed in 0..30 {
        let built = build(&CatalogPlan::random(seed, seed as usize % 4, 6));
        for change in harmless(&built) {
            let mut image = built.image.clone();
            change.apply(&mut image);
            let mut work = vec![0; needed_work(image.len())];
            assert_eq!(check(&image, &mut work), Verdict::SOUND, "{}", change.name());
            // Every key is found where it was.
            for record in built.records.iter().step_by(7) {
                let (parent, name) = (record.key.parent, &record.key.name);
                let before = lookup(&built.image, parent, name, &mut work);
                assert_eq!(lookup(&image, parent, name, &mut work), before, "{}", change.name());
                let before = salvage(&built.image, parent, name);
                assert_eq!(salvage(&image, parent, name), before, "{}", change.name());
            }
            known.insert(change.what);
        }
    }
    for what in ["reserved_key_byte", "pad", "bytes_past_the_name", "other_case", "other_thread"] {
        assert!(known.contains(&format!("{what}_of_0")), "{what}");
    }
}

#[test]
fn a_large_tree_spoiled_here_and_there() {
    let built = samples::largest_mixed_of(3_000);
    for number in 1..=10 {
        let known = by_number(&built, number);
        let step = known.len().div_ceil(30);
        for spoiling in known.iter().step_by(step).chain(known.last()) {
            assert_refused(&built, spoiling);
        }
    }
}

/// Two faults at once: the answer is the one that the order of tests comes to first.
#[test]
fn the_first_of_two_faults_wins() {
    let mut pairs = 0;
    for built in [build(&CatalogPlan::random(7, 2, 3)), build(&CatalogPlan::random(8, 3, 3))] {
        let known = spoilings(&built);
        let known: Vec<&Spoiling> = known.iter().step_by(1 + known.len() / 300).collect();
        for (index, a) in known.iter().enumerate() {
            for b in known[index + 1..].iter().filter(|b| independent(a, b)) {
                let (earlier, later) = if a.moment <= b.moment { (a, b) } else { (b, a) };
                let mut image = built.image.clone();
                // A wrong length is the earliest fault, so the image is cut after all other changes.
                later.apply(&mut image);
                earlier.apply(&mut image);
                let said = check(&image, &mut vec![0; needed_work(image.len())]);
                assert_eq!(said, verdict_of(earlier), "{} and {}", earlier.name(), later.name());
                pairs += 1;
            }
        }
    }
    assert!(pairs > 10_000, "{pairs} pairs");
}

/// Whether the second fault leaves the first one standing.
fn independent(a: &Spoiling, b: &Spoiling) -> bool {
    // One moved key can make room for another, and a moved pointer can match a moved first key.
    let both_move_keys = a.number == 6 && b.number == 6;
    // A wrong depth can be right for a wrong level.
    let of_form =
        |spoiling: &Spoiling, field| spoiling.number == 5 && spoiling.what.contains(field);
    let depth_meets_level = (of_form(a, "depth") && of_form(b, "level"))
        || (of_form(a, "level") && of_form(b, "depth"));
    // A wrong key length can be right for a wrong name length.
    let lengths_meet = of_form(a, "length") && of_form(b, "length");
    !a.overlaps(b) && !both_move_keys && !depth_meets_level && !lengths_meet
}

#[test]
fn bench_images_that_are_not_sound() {
    let said = |image: &[u8]| {
        let Verdict { number, place } = check(image, &mut vec![0; needed_work(image.len())]);
        (number, place.node, place.offset)
    };
    assert_eq!(said(&bench::cartridge_with_back_link_1()), (7, 1, 4));
    assert_eq!(said(&bench::leaf_with(9)), (5, 1, 0));
    assert_eq!(said(&bench::index_with(12)), (5, 1, 0));
    assert_eq!(said(&bench::full_leaf(8)), (5, 1, 0));
    assert_eq!(said(&bench::full_leaf(9)), (5, 1, 0));
    // 14 + 7 bytes, a name of 7 and 70 more: the second record starts at 98.
    assert_eq!(said(&bench::case_twins([2, 2])), (6, 1, 98));
}
