//! Salvage, against a brute force that reads nodes by the paper's words.

use images::bench;
use images::by_hand::three_levels_by_hand;
use images::spoil::spoilings;
use images::{build, samples, Key, Plan, Rng};
use reference::{salvage, Place, Salvage, SalvageAnswer};

/// All that a node would give a salvage: the key and the start of each of its records.
fn records_of(image: &[u8], node: usize) -> Option<Vec<(Key, usize)>> {
    let byte = |at: usize| u32::from(image[node * 512 + at]);
    let word = |at: usize| byte(at) * 256 + byte(at + 1);
    let count = word(10) as usize;
    let (kind, reserved) = (byte(8), word(12));
    if kind != 255 || reserved != 0 || count == 0 || count > 22 {
        return None;
    }
    let mut records: Vec<(Key, usize)> = Vec::new();
    for record in 0..=count {
        let offset = word(512 - 2 * (record + 1)) as usize;
        if offset != 14 + 20 * record {
            return None;
        }
        if record == count {
            break;
        }
        let file = word(offset + 2) * 65_536 + word(offset + 4);
        let fork = byte(offset + 1) as u8;
        let key = Key::new(file, fork, word(offset + 6));
        let ascends = records.last().is_none_or(|before| before.0 < key);
        if byte(offset) != 7 || (fork != 0 && fork != 255) || !ascends {
            return None;
        }
        records.push((key, offset));
    }
    Some(records)
}

fn seen_at(node: u32, offset: u32) -> SalvageAnswer {
    SalvageAnswer::Seen { place: Place { node, offset } }
}

fn by_brute_force(image: &[u8], asked: Key) -> Salvage {
    for node in 1..image.len() / 512 {
        let records = records_of(image, node).unwrap_or_default();
        for (key, offset) in records {
            if key == asked {
                let data = node * 512 + offset + 8;
                return Salvage {
                    answer: seen_at(node as u32, offset as u32),
                    data: Some(data..data + 12),
                };
            }
        }
    }
    Salvage { answer: SalvageAnswer::NotSeen, data: None }
}

/// Every key that any node gives, and one lawful key beside each.
fn keys_worth_asking(image: &[u8]) -> Vec<Key> {
    let mut keys = vec![Key::new(0, 0x00, 0), Key::new(u32::MAX, 0xFF, 65_535)];
    for node in 1..image.len() / 512 {
        for (key, _) in records_of(image, node).unwrap_or_default() {
            keys.extend([key, Key::from_rank(key.rank() + 1)]);
        }
    }
    keys.sort_unstable();
    keys.dedup();
    keys
}

fn assert_right(image: &[u8]) {
    for asked in keys_worth_asking(image) {
        let got = salvage(image, asked.file, asked.fork, asked.start as u16);
        assert_eq!(got, by_brute_force(image, asked), "{asked:?}");
    }
}

fn refused(number: u32) -> Salvage {
    let place = Place { node: 0, offset: 0 };
    Salvage { answer: SalvageAnswer::Refused { number, place }, data: None }
}

#[test]
fn sound_trees_with_old_garbage() {
    for depth in 0..=8 {
        for seed in 400..404 {
            let plan = Plan { free_nodes: 30, old_garbage: true, ..Plan::random(seed, depth, 10) };
            assert_right(&build(&plan).image);
        }
    }
    assert_right(&samples::two_level().image);
}

#[test]
fn spoiled_trees() {
    let plan = Plan { records_per_leaf: 1..=4, ..Plan::untidy(405, &[1, 3, 6]) };
    let built = build(&plan);
    for spoiling in spoilings(&built) {
        let mut image = built.image.clone();
        spoiling.apply(&mut image);
        if image.len() <= 33_554_432 {
            assert_right(&image);
        }
    }
}

#[test]
fn trees_with_random_bytes_changed() {
    let mut rng = Rng::new(406);
    for seed in 0..200 {
        let mut image = build(&Plan::random(seed, 1 + seed as usize % 3, 6)).image;
        for _ in 0..rng.index(60) {
            let at = rng.index(image.len());
            image[at] = rng.next_u64() as u8;
        }
        image.truncate(rng.index(image.len() + 1));
        assert_right(&image);
    }
}

#[test]
fn the_lowest_node_is_seen_first() {
    // Free node 8 gets a copy of leaf 4, and node 2 as well; 2 is the lowest.
    let mut image = three_levels_by_hand();
    let seen = |image: &[u8]| salvage(image, 20, 0x00, 0);
    image.copy_within(4 * 512..5 * 512, 8 * 512);
    assert_eq!(seen(&image).answer, seen_at(4, 34));
    assert_eq!(seen(&image).data, Some(4 * 512 + 42..4 * 512 + 54));
    image.copy_within(4 * 512..5 * 512, 2 * 512);
    assert_eq!(seen(&image).answer, seen_at(2, 34));
    // The header's place is never a leaf.
    image.copy_within(4 * 512..5 * 512, 0);
    assert_eq!(seen(&image).answer, seen_at(2, 34));
    // Level and links are not looked at.
    image[2 * 512..2 * 512 + 8].fill(0xA5);
    image[2 * 512 + 9] = 0xA5;
    assert_eq!(seen(&image).answer, seen_at(2, 34));
    // A fault in another record of the node takes the whole node out.
    image[2 * 512 + 14] = 6;
    assert_eq!(seen(&image).answer, seen_at(4, 34));
}

#[test]
fn lengths() {
    let mut image = bench::l1();
    let seen = salvage(&image, 16, 0x00, 5);
    assert_eq!(seen.answer, seen_at(1, 14));
    assert_eq!(seen.data, Some(534..546));
    // A broken last node is ignored.
    image.push(0xFF);
    assert_eq!(salvage(&image, 16, 0x00, 5), seen);
    image.truncate(1_023);
    assert_eq!(salvage(&image, 16, 0x00, 5).answer, SalvageAnswer::NotSeen);
    assert_eq!(salvage(&[], 16, 0x00, 5).answer, SalvageAnswer::NotSeen);
    // 33,554,432 bytes are taken, one more is not.
    let mut long = bench::l1();
    long.resize(33_554_432, 0);
    assert_eq!(salvage(&long, 16, 0x00, 5), seen);
    // The last node there can be is looked at as well.
    long.copy_within(512..1_024, 65_535 * 512);
    long[512..1_024].fill(0);
    assert_eq!(salvage(&long, 16, 0x00, 5).answer, seen_at(65_535, 14));
    long.push(0);
    assert_eq!(salvage(&long, 16, 0x00, 5), refused(1));
    assert_eq!(salvage(&long, 16, 0x01, 5), refused(11));
}

#[test]
fn unlawful_forks_are_refused() {
    for fork in 0x01..=0xFE {
        assert_eq!(salvage(&bench::l1(), 16, fork, 5), refused(11));
    }
}
