//! Salvage in every format, against a brute force that reads nodes by the words of the papers.

use crate::formats::{key_at, salvage, salvage_refused, sizes, word, BY_SIZE};
use images::by_hand::{file_key, three_levels_by_hand_in};
use images::spoil::spoilings;
use images::{build, Edition, Format, Key, Plan, Rng};
use reference::{Place, Salvage, SalvageAnswer};

/// The most records that a leaf holds, by hand.
fn most_records(format: Format) -> usize {
    let by_size = BY_SIZE.iter().find(|by_size| by_size.node_size == format.node_size);
    match format.edition {
        Edition::Hfs => 22,
        Edition::HfsPlus => by_size.expect("a listed size").most_leaf_records,
    }
}

fn has_right_length(format: Format, node: &[u8], at: usize) -> bool {
    match format.edition {
        Edition::Hfs => node[at] == 7,
        Edition::HfsPlus => word(node, at) == 10,
    }
}

/// All that a node would give a salvage: the key and the start of each of its records.
fn records_of(format: Format, node: &[u8]) -> Option<Vec<(Key, usize)>> {
    let count = word(node, 10) as usize;
    if node[8] != 0xFF || word(node, 12) != 0 || count == 0 || count > most_records(format) {
        return None;
    }
    let (_, record_size, _) = sizes(format);
    let mut records: Vec<(Key, usize)> = Vec::new();
    for record in 0..=count {
        let offset = word(node, format.node_size - 2 * (record + 1)) as usize;
        if offset != 14 + record_size * record {
            return None;
        }
        if record == count {
            break;
        }
        let key = key_at(format, node, offset);
        let ascends = records.last().is_none_or(|before| before.0 < key);
        let is_lawful = has_right_length(format, node, offset) && [0x00, 0xFF].contains(&key.fork);
        if !is_lawful || !ascends {
            return None;
        }
        records.push((key, offset));
    }
    Some(records)
}

/// Every record that a salvage can see, lowest node first.
fn all_records(format: Format, image: &[u8]) -> Vec<(Key, u32, usize)> {
    let nodes = image.chunks_exact(format.node_size).enumerate().skip(1);
    let of_node = |(number, node)| {
        let records = records_of(format, node).unwrap_or_default();
        records.into_iter().map(move |(key, offset)| (key, number as u32, offset))
    };
    nodes.flat_map(of_node).collect()
}

fn by_brute_force(format: Format, all: &[(Key, u32, usize)], asked: Key) -> Salvage {
    let Some(&(_, node, offset)) = all.iter().find(|(key, ..)| *key == asked) else {
        return Salvage { answer: SalvageAnswer::NotSeen, data: None };
    };
    let place = Place { node, offset: offset as u32 };
    let at = node as usize * format.node_size + offset;
    let (key_size, record_size, _) = sizes(format);
    let data = Some(at + key_size..at + record_size);
    Salvage { answer: SalvageAnswer::Seen { place }, data }
}

/// Asks for some of the keys that any node gives, and for one lawful key beside each.
fn assert_right(format: Format, image: &[u8]) {
    let all = all_records(format, image);
    let step = all.len() / 40 + 1;
    let mut asked = vec![Key::new(0, 0x00, 0), Key::new(16, 0xFF, 5)];
    for (key, ..) in all.iter().step_by(step).chain(all.last()) {
        asked.extend([*key, format.key_of_rank(format.rank_of(*key) + 1)]);
    }
    for asked in asked {
        let got = salvage(format, image, asked);
        assert_eq!(got, by_brute_force(format, &all, asked), "{format:?} {asked:?}");
    }
}

#[test]
fn sound_trees_with_old_garbage() {
    for format in Format::all() {
        for depth in 0..=4 {
            let plan = Plan { old_garbage: true, ..Plan::random_in(format, 750, depth, 4) };
            let built = build(&Plan { free_nodes: 20, noise: true, ..plan });
            assert_right(format, &built.image);
        }
    }
}

#[test]
fn every_record_of_a_tidy_tree_is_seen_where_it_was_built() {
    for format in Format::all() {
        let built = build(&Plan { noise: true, ..Plan::tidy_in(format, 751, &[1, 2]) });
        let (key_size, record_size, _) = sizes(format);
        let leaves = &built.levels[1];
        for (&node, group) in leaves.numbers.iter().zip(&leaves.groups) {
            for (record, index) in group.clone().enumerate() {
                let seen = salvage(format, &built.image, built.records[index].key);
                let offset = 14 + record_size * record;
                let place = Place { node, offset: offset as u32 };
                assert_eq!(seen.answer, SalvageAnswer::Seen { place });
                let at = node as usize * format.node_size + offset;
                assert_eq!(seen.data, Some(at + key_size..at + record_size));
            }
        }
    }
}

#[test]
fn spoiled_trees() {
    for format in Format::all() {
        let plan = Plan { free_nodes: 3, ..Plan::untidy_in(format, 752, &[1, 3]) };
        let built = build(&Plan { records_per_leaf: 1..=4, ..plan });
        for spoiling in spoilings(&built) {
            let mut image = built.image.clone();
            spoiling.apply(&mut image);
            if image.len() <= 2 * built.image.len() {
                assert_right(format, &image);
            }
        }
    }
}

#[test]
fn trees_with_random_bytes_changed() {
    let mut rng = Rng::new(753);
    for format in Format::all() {
        for seed in 0..20 {
            let mut image = build(&Plan::random_in(format, seed, 1 + seed as usize % 3, 4)).image;
            for _ in 0..rng.index(60) {
                let at = rng.index(image.len());
                image[at] = rng.next_u64() as u8;
            }
            image.truncate(rng.index(image.len() + 1));
            assert_right(format, &image);
        }
    }
}

#[test]
fn the_lowest_node_is_seen_first() {
    for format in Format::all() {
        let size = format.node_size;
        let (_, record_size, _) = sizes(format);
        let mut image = three_levels_by_hand_in(format);
        let seen_in = |image: &[u8]| match salvage(format, image, file_key(20)).answer {
            SalvageAnswer::Seen { place } => (place.node, place.offset as usize),
            other => panic!("{other:?}"),
        };
        assert_eq!(seen_in(&image), (4, 14 + record_size));
        // Node 2 gets a copy of leaf 4, with other links and another level.
        image.copy_within(4 * size..5 * size, 2 * size);
        image[2 * size..2 * size + 8].fill(0xA5);
        image[2 * size + 9] = 0xA5;
        assert_eq!(seen_in(&image), (2, 14 + record_size));
        // The header's place is never a leaf.
        image.copy_within(4 * size..5 * size, 0);
        assert_eq!(seen_in(&image), (2, 14 + record_size));
        // A fault in another record of the node takes the whole node out.
        image[2 * size + 14] ^= 1;
        assert_eq!(seen_in(&image), (4, 14 + record_size));
    }
}

#[test]
fn unlawful_forks_are_refused() {
    for format in Format::all() {
        let image = three_levels_by_hand_in(format);
        for fork in 0x01..=0xFE {
            assert_eq!(salvage(format, &image, Key::new(20, fork, 0)), salvage_refused(11));
        }
    }
}
