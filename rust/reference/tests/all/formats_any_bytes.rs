//! Any bytes at all get an answer in every format, and only what the rules judge matters.

use crate::formats::{check, lookup, salvage, sizes, SOUND};
use images::by_hand::{file_key, three_levels_by_hand_in};
use images::{build, Built, Edition, Format, Key, Plan, Rng};
use reference::Answer;

/// Asks everything; what is called sound must also behave as sound.
fn ask_everything(format: Format, image: &[u8], asked: &[Key]) {
    let is_sound = check(format, image) == SOUND;
    for &asked in asked {
        let got = lookup(format, image, asked);
        let is_refused = matches!(got.answer, Answer::Refused { .. });
        assert_eq!(is_refused, !is_sound, "{format:?} {asked:?}");
        let size = got.data.map_or(0, |data| image[data].len());
        let (key_size, record_size, _) = sizes(format);
        assert!(size == 0 || size == record_size - key_size);
        salvage(format, image, asked);
    }
}

#[test]
fn random_bytes() {
    let mut rng = Rng::new(760);
    for format in Format::all() {
        for _ in 0..50 {
            let mut image = vec![0; rng.index(4 * format.node_size)];
            rng.fill(&mut image);
            ask_everything(format, &image, &[Key::new(16, 0x00, 5)]);
        }
    }
}

/// Changes a byte of any node, mostly where the fields are.
fn change_a_byte(rng: &mut Rng, built: &mut Built) {
    let size = built.format.node_size;
    let node = rng.index(built.image.len() / size) * size;
    let within = [rng.index(14), rng.index(120), size - 1 - rng.index(60), rng.index(size)];
    let at = node + within[rng.index(4)];
    let byte = built.image[at];
    built.image[at] = [rng.next_u64() as u8, rng.index(12) as u8, byte ^ 1][rng.index(3)];
}

#[test]
fn sound_trees_with_small_changes() {
    let mut rng = Rng::new(761);
    for format in Format::all() {
        for seed in 0..120 {
            let mut built = build(&Plan::random_in(format, seed, seed as usize % 5, 3));
            for _ in 0..=rng.index(4) {
                change_a_byte(&mut rng, &mut built);
            }
            let asked: Vec<Key> = built.records.iter().take(3).map(|record| record.key).collect();
            ask_everything(format, &built.image, &asked);
        }
    }
}

/// Whether a byte of a key is judged; only the rest of the key can fit in more ways than one.
fn is_key_byte_judged(format: Format, byte: usize, is_free_to_move: bool) -> Option<bool> {
    let (before_rest, pad) = match format.edition {
        Edition::Hfs => (2, None),
        Edition::HfsPlus => (4, Some(3)),
    };
    match byte {
        _ if pad == Some(byte) => Some(false),
        _ if byte < before_rest => Some(true),
        _ if is_free_to_move => None,
        _ => Some(true),
    }
}

/// The bytes of the tree by hand that a rule judges; none is said of keys in the second records of
/// leaves, where a change may or may not break the order.
fn is_judged(format: Format, at: usize) -> Option<bool> {
    let (node, within) = (at / format.node_size, at % format.node_size);
    let from_end = format.node_size - within;
    let (key_size, leaf_size, index_size) = sizes(format);
    match node {
        0 => Some(!(44..248).contains(&within)),
        // HFS Plus leaves two bytes free before the two offset words of a map node.
        10 => Some(format.edition == Edition::Hfs || !(5..=6).contains(&from_end)),
        8 | 9 => Some(false),
        _ => {
            let is_leaf = node >= 4;
            let size = if is_leaf { leaf_size } else { index_size };
            if !(14..14 + 2 * size).contains(&within) {
                return Some(within < 14 || from_end <= 6);
            }
            let (record, byte) = ((within - 14) / size, (within - 14) % size);
            if byte < key_size {
                is_key_byte_judged(format, byte, is_leaf && record == 1)
            } else {
                Some(!is_leaf)
            }
        }
    }
}

#[test]
fn every_judged_bit_matters_and_no_other() {
    for format in [Format::HFS, Format::plus(512), Format::plus(2_048)] {
        let mut image = three_levels_by_hand_in(format);
        for at in 0..image.len() {
            let Some(judged) = is_judged(format, at) else {
                continue;
            };
            for bit in 0..8 {
                image[at] ^= 1 << bit;
                let refused = check(format, &image) != SOUND;
                assert_eq!(refused, judged, "{format:?} byte {at} bit {bit}");
                image[at] ^= 1 << bit;
            }
        }
        assert!(matches!(lookup(format, &image, file_key(20)).answer, Answer::Found { .. }));
    }
}
