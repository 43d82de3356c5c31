//! Any bytes at all get an answer, and only images that keep the rules are called sound.

use crate::lent::{check, lookup};
use images::by_hand::three_levels_by_hand;
use images::{bench, build, Plan, Rng};
use reference::{leaf_records, listing, salvage, Answer, Place, Verdict};

/// Asks everything; what is called sound must also behave as sound.
fn ask_everything(image: &[u8]) {
    let verdict = check(image);
    let records = leaf_records(image);
    listing(image);
    lookup(image, 16, 0x00, 5);
    salvage(image, 16, 0xFF, 5);
    if verdict != Verdict::SOUND {
        return;
    }
    assert!(records.windows(2).all(|pair| pair[0].key.compare(pair[1].key) == -1));
    for listed in records.iter().take(20) {
        let key = listed.key;
        let place = Place { node: listed.node, offset: listed.start };
        let found = Answer::Found { place };
        assert_eq!(lookup(image, key.file, key.fork, key.start).answer, found);
    }
}

#[test]
fn random_bytes() {
    let mut rng = Rng::new(500);
    for _ in 0..2_000 {
        let mut image = vec![0; rng.index(4_000)];
        rng.fill(&mut image);
        ask_everything(&image);
    }
}

#[test]
fn random_bytes_behind_a_good_header() {
    let mut rng = Rng::new(501);
    for _ in 0..2_000 {
        let mut image = bench::empty_tree(2 + rng.index(6) as u32);
        rng.fill(&mut image[512..]);
        image[15] = 1 + rng.index(8) as u8;
        for field in [0, 16, 20, 24, 28] {
            image[field + 3] = rng.index(9) as u8;
        }
        ask_everything(&image);
    }
}

#[test]
fn sound_trees_with_small_changes() {
    let mut rng = Rng::new(502);
    for seed in 0..3_000 {
        let mut image = build(&Plan::random(seed, seed as usize % 9, 4)).image;
        for _ in 0..=rng.index(4) {
            let node = rng.index(image.len() / 512) * 512;
            // Most changes go where the fields are.
            let within = [rng.index(14), rng.index(60), 511 - rng.index(60), rng.index(512)];
            let at = node + within[rng.index(4)];
            image[at] = [rng.next_u64() as u8, rng.index(12) as u8, image[at] ^ 1][rng.index(3)];
        }
        ask_everything(&image);
    }
}

/// The bytes of the tree by hand that no rule judges, and those of key values in the second records
/// of leaves, where a change may or may not break the order; pointers and first keys must match.
fn is_judged(at: usize) -> Option<bool> {
    let (node, within) = (at / 512, at % 512);
    match node {
        0 => Some(!(44..248).contains(&within)),
        10 => Some(true),
        8 | 9 => Some(false),
        _ => {
            // Two records of 12 or 20 bytes and three offset words.
            let size = if node < 4 { 12 } else { 20 };
            if !(14..14 + 2 * size).contains(&within) {
                return Some(!(14..506).contains(&within));
            }
            let is_leaf = node >= 4;
            match ((within - 14) / size, (within - 14) % size) {
                (_, 0 | 1) => Some(true),
                (1, 2..8) if is_leaf => None,
                (_, 2..8) => Some(true),
                _ => Some(!is_leaf),
            }
        }
    }
}

#[test]
fn every_judged_bit_matters_and_no_other() {
    let sound = three_levels_by_hand();
    for at in 0..sound.len() {
        let Some(judged) = is_judged(at) else {
            continue;
        };
        for bit in 0..8 {
            let mut image = sound.clone();
            image[at] ^= 1 << bit;
            assert_eq!(check(&image) != Verdict::SOUND, judged, "byte {at} bit {bit}");
        }
    }
}
