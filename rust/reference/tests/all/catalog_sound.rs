//! Generated catalogs are sound, and hold what was built into them.

use images::catalog::character_order::rank;
use images::catalog::{build, samples, Built, CatalogPlan, Key};
use reference::catalog::{self, leaf_records, LeafRecord, WEIGHTS};
use reference::{needed_work, Verdict};

fn check(image: &[u8]) -> Verdict {
    catalog::check(image, &mut vec![0xA5; needed_work(image.len())])
}

fn assert_sound(built: &Built, name: &str) {
    assert_eq!(check(&built.image), Verdict::SOUND, "{name}");
    let listed = leaf_records(&built.image);
    assert_eq!(listed.len(), built.records.len(), "{name}");
    for (listed, record) in listed.iter().zip(&built.records) {
        let LeafRecord { key, data, .. } = listed;
        assert_eq!((key.parent, key.name), (record.key.parent, &record.key.name[..]), "{name}");
        assert_eq!(*data, record.data, "{name}");
    }
}

#[test]
fn random_trees_of_every_depth() {
    for depth in 0..=8 {
        for seed in 0..60 {
            let built = build(&CatalogPlan::random(seed, depth, 20));
            assert_sound(&built, &format!("depth {depth} seed {seed}"));
        }
    }
}

#[test]
fn samples_are_sound() {
    assert_sound(&samples::two_level(), "two_level");
    assert_sound(&samples::three_level(), "three_level");
    assert_sound(&samples::largest_mixed_of(6_000), "largest_mixed_of_6000");
}

#[test]
fn largest_has_65536_nodes_and_476472_records() {
    let built = samples::largest();
    assert_eq!((built.total(), built.map_chain.len(), built.free.len()), (65_536, 17, 0));
    let sizes: Vec<usize> = built.levels.iter().map(|level| level.numbers.len()).collect();
    assert_eq!(sizes, [1, 5, 45, 493, 5_415, 59_559]);
    assert_eq!(built.records.len(), 8 * 59_559);
    assert_sound(&built, "largest");
}

#[test]
fn ranks_are_in_the_order_of_the_weights() {
    for a in 0..=255 {
        for b in 0..=255 {
            let weights = [a, b].map(|byte| WEIGHTS[usize::from(byte)]);
            assert_eq!(rank(a).cmp(&rank(b)), weights[0].cmp(&weights[1]), "{a:02X} {b:02X}");
        }
    }
}

/// What the generator is there for does come up in its trees.
#[test]
fn names_of_every_kind_occur() {
    let trees: Vec<Built> =
        (0..40).map(|seed| build(&CatalogPlan::random(seed, 1 + seed as usize % 4, 20))).collect();
    let keys: Vec<&Key> =
        trees.iter().flat_map(|built| &built.records).map(|record| &record.key).collect();
    for length in 0..=31 {
        assert!(keys.iter().any(|key| key.name.len() == length), "a name of {length} bytes");
    }
    for byte in 0..=255 {
        assert!(keys.iter().any(|key| key.name.contains(&byte)), "byte {byte:02X}");
    }
    let beside: Vec<[&Key; 2]> = keys.windows(2).map(|pair| [pair[0], pair[1]]).collect();
    let one_parent = |pair: &[&Key; 2]| pair[0].parent == pair[1].parent;
    assert!(beside.iter().any(|pair| one_parent(pair) && pair[1].name.starts_with(&pair[0].name)));
    // In order by weights and not by bytes.
    assert!(beside.iter().any(|pair| one_parent(pair) && pair[0].name > pair[1].name));
    // Names that differ and weigh the same, under different parents.
    let twins = |a: &Key, b: &Key| a.name != b.name && Key::new(b.parent, &a.name) == *b;
    let in_tree = |built: &Built| {
        let keys: Vec<&Key> = built.records.iter().map(|record| &record.key).collect();
        keys.iter().any(|a| keys.iter().any(|b| a.parent != b.parent && twins(a, b)))
    };
    assert!(trees.iter().any(in_tree));
    assert!(keys.iter().any(|key| key.parent > i32::MAX as u32));
    for data_type in 1..=4 {
        let of_type =
            |built: &Built| built.records.iter().any(|record| record.data[0] == data_type);
        assert!(trees.iter().any(of_type), "type {data_type}");
    }
}

#[test]
fn leaves_and_index_nodes_of_every_size_occur() {
    let mut counts = [[false; 12]; 2];
    for seed in 0..200 {
        let built = build(&CatalogPlan::random(seed, 2 + seed as usize % 2, 60));
        for (level, counts_of) in built.levels.iter().rev().zip([0, 1, 1]) {
            for group in &level.groups {
                counts[counts_of][group.len()] = true;
            }
        }
    }
    assert!(counts[0][1..=8].iter().all(|&occurs| occurs), "leaves: {:?}", counts[0]);
    assert!(counts[1][1..=11].iter().all(|&occurs| occurs), "index nodes: {:?}", counts[1]);
}
