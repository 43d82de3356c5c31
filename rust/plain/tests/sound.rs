//! Sound images: the paper's, samples, random ones, and those that a writer lays down.

mod agreement;

use agreement::Agreement;
use images::rows::{self, Row};
use images::{bench, build, samples, Built, Key, Plan, Rng};

/// The keys of an image, those right beside them, and some that are always asked.
fn keys_of(built: &Built, most: usize) -> Vec<Key> {
    let records = &built.records;
    let step = records.len().div_ceil(most).max(1);
    let ranks = records.iter().step_by(step).map(|record| record.key.rank());
    let beside = |rank: u64| [rank.saturating_sub(1), rank, rank + 1];
    let mut keys: Vec<Key> = ranks.flat_map(beside).map(Key::from_rank).collect();
    keys.extend([Key::new(0, 0x00, 0), Key::new(u32::MAX, 0xFF, 0xFFFF), Key::new(16, 0x01, 5)]);
    keys
}

/// Asks for the keys and expects nothing but a sound image.
fn assert_sound(agreement: &mut Agreement, image: &[u8], keys: &[Key]) {
    let before = agreement.verdicts.get(&0).copied().unwrap_or(0);
    agreement.ask(image, keys);
    assert!(agreement.verdicts[&0] > before, "not sound");
}

#[test]
fn bench_images() {
    let mut agreement = Agreement::new(1);
    let keys = [(16, 0x00, 5), (16, 0xFF, 5), (16, 0x01, 5), (1, 0x00, 0), (22, 0x00, 0)];
    let keys = keys.map(|(file, fork, start)| Key::new(file, fork, start));
    let mut images = vec![
        Vec::new(),
        vec![0; 511],
        vec![0; 512],
        vec![0; 33_554_944],
        bench::e1(),
        bench::e1_with_map_byte(0x00),
        bench::e1_with_map_byte(0xC0),
        bench::e1_with_free_1(),
        bench::l1(),
        bench::l1_with_back_link_1(),
        bench::two_leaves(),
        bench::two_leaves_with_levels(1, 2),
        bench::map_node_linked_to_itself(),
        bench::empty_tree(2_048),
        bench::empty_tree(2_049),
    ];
    images.extend((0..=23).map(bench::leaf_with));
    images.extend((1..=36).map(bench::index_with));
    for image in &images {
        agreement.ask(image, &keys);
    }
    let answered: Vec<u32> = agreement.verdicts.keys().copied().collect();
    assert_eq!(answered, [0, 1, 2, 3, 5, 7, 9, 10, 16]);
}

#[test]
fn random_trees() {
    let mut agreement = Agreement::new(2);
    for depth in 0..=8 {
        for seed in 0..12 {
            let built = build(&Plan::random(seed, depth, 12));
            assert_sound(&mut agreement, &built.image, &keys_of(&built, 20));
        }
    }
    let [lookups, salvages] = [&agreement.lookups, &agreement.salvages].map(|counts| counts.len());
    // Found, absent and a wrong fork byte; seen, not seen and a wrong fork byte.
    assert_eq!((lookups, salvages), (3, 3));
    assert!(agreement.lookups[&0] > 1_000 && agreement.lookups[&12] > 1_000);
}

#[test]
fn samples_of_several_sizes() {
    let mut agreement = Agreement::new(3);
    let small = [
        samples::two_level(),
        samples::three_level(),
        samples::falling_map_nodes(),
        samples::longest_listed(),
    ];
    for built in &small {
        assert_sound(&mut agreement, &built.image, &keys_of(built, 60));
    }
    let large = [samples::three_level_large(), samples::needed_map_nodes()];
    for built in large.iter().chain([&samples::largest_of(6_000), &samples::largest()]) {
        assert_sound(&mut agreement, &built.image, &keys_of(built, 3));
    }
}

#[test]
fn written_images() {
    let mut agreement = Agreement::new(4);
    let mut rng = Rng::new(4);
    for nodes in [1, 2, 3, 4, 37, 38, 100, 2_048, 2_049, 6_000, 65_536] {
        let row = rows::longest(nodes);
        let mut image = vec![0; nodes * 512];
        assert_eq!(reference::write_tree(&row.bytes, &mut image).number, 0);
        assert_sound(&mut agreement, &image, &some_keys(&mut rng, &row));
    }
}

fn some_keys(rng: &mut Rng, row: &Row) -> Vec<Key> {
    let count = if row.records.is_empty() { 0 } else { 4 };
    let mut keys: Vec<Key> =
        (0..count).map(|_| row.records[rng.index(row.records.len())].key).collect();
    keys.push(Key::new(u32::MAX, 0xFF, 0xFFFF));
    keys
}
