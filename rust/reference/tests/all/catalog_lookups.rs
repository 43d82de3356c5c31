//! Lookups and salvages in catalogs, against a brute force that reads nodes by the request's words.

use images::catalog::{bench, build, samples, Built, CatalogPlan, Key};
use images::spoil::{harmless, spoilings};
use images::{Plan, Rng};
use reference::catalog::{lookup, salvage, WEIGHTS};
use reference::{needed_work, Answer, Lookup, Place, Salvage, SalvageAnswer};
use std::ops::Range;

/// A record as it was read: where it starts, its parent, the weights of its name, and its data.
struct Read {
    start: usize,
    parent: usize,
    weights: Vec<u8>,
    data: Range<usize>,
}

fn weights(name: &[u8]) -> Vec<u8> {
    name.iter().map(|&byte| WEIGHTS[usize::from(byte)]).collect()
}

fn number(bytes: &[u8]) -> usize {
    bytes.iter().fold(0, |number, &byte| number << 8 | usize::from(byte))
}

/// The records of a node that is a leaf by itself: everything that 5 asks but the level, and order.
fn records_of(node: &[u8]) -> Option<Vec<Read>> {
    let count = number(&node[10..12]);
    if node[8] != 0xFF || node[12..14] != [0, 0] || !(1..=8).contains(&count) {
        return None;
    }
    let mut records: Vec<Read> = Vec::new();
    let mut start = 14;
    for record in 0..=count {
        if number(&node[510 - 2 * record..512 - 2 * record]) != start {
            return None;
        }
        if record < count {
            let read = read_record(node, start)?;
            let ascends =
                |before: &Read| (before.parent, &before.weights) < (read.parent, &read.weights);
            if !records.last().is_none_or(ascends) || read.data.end > 512 - 2 * (count + 1) {
                return None;
            }
            start = read.data.end;
            records.push(read);
        }
    }
    Some(records)
}

/// None where the lengths or the type are wrong, or the record goes on after the node.
fn read_record(node: &[u8], start: usize) -> Option<Read> {
    let key = node.get(start..start + 7)?;
    let length = usize::from(key[6]);
    if length > 31 || usize::from(key[0]) != 6 + length {
        return None;
    }
    let name = node.get(start + 7..start + 7 + length)?;
    let mut data_at = start + 7 + length;
    if data_at % 2 == 1 {
        data_at += 1;
    }
    let size = match node.get(data_at)? {
        1 => 70,
        2 => 102,
        3 | 4 => 46,
        _ => return None,
    };
    node.get(data_at..data_at + size)?;
    let parent = number(&key[2..6]);
    Some(Read { start, parent, weights: weights(name), data: data_at..data_at + size })
}

fn has_key(read: &Read, asked: &Key) -> bool {
    (read.parent, &read.weights) == (asked.parent as usize, &weights(&asked.name))
}

fn in_image(node: usize, within: &Range<usize>) -> Option<Range<usize>> {
    Some(node * 512 + within.start..node * 512 + within.end)
}

fn salvage_by_brute_force(image: &[u8], asked: &Key) -> Salvage {
    for (node, bytes) in image.chunks_exact(512).enumerate().skip(1) {
        let records = records_of(bytes).unwrap_or_default();
        if let Some(read) = records.iter().find(|read| has_key(read, asked)) {
            let place = Place { node: node as u32, offset: read.start as u32 };
            let data = in_image(node, &read.data);
            return Salvage { answer: SalvageAnswer::Seen { place }, data };
        }
    }
    Salvage { answer: SalvageAnswer::NotSeen, data: None }
}

fn node_of(image: &[u8], number: usize) -> &[u8] {
    &image[512 * number..512 * (number + 1)]
}

/// The road to a key in a sound image by its pointers, and how many keys are compared on it.
fn road_of(image: &[u8], asked: &Key) -> (Vec<usize>, u32) {
    let wanted = (asked.parent as usize, weights(&asked.name));
    let depth = number(&image[14..16]);
    let mut road = Vec::new();
    let mut compared = 0;
    let mut next = Some(number(&image[16..20]));
    while let Some(node) = next.take_if(|_| road.len() < depth) {
        road.push(node);
        let bytes = node_of(image, node);
        let count = number(&bytes[10..12]);
        let keys: Vec<(usize, Vec<u8>)> = (0..count).map(|record| key_at(bytes, record)).collect();
        compared += halvings(&keys, &wanted);
        let pointer = keys.iter().rposition(|key| *key <= wanted);
        next = pointer.map(|record| number(&bytes[14 + 42 * record + 38..14 + 42 * record + 42]));
    }
    (road, compared)
}

/// The lookup in a sound image: the road, then the records of its leaf one by one.
fn lookup_by_brute_force(image: &[u8], asked: &Key) -> Lookup {
    let (road, compared) = road_of(image, asked);
    let mut path = [0; 8];
    for (place, &node) in path.iter_mut().zip(&road) {
        *place = node as u32;
    }
    let last = road.last().copied().unwrap_or(0);
    // Only a leaf has records of this form, so a road that ends above the leaves gives none.
    let records = records_of(node_of(image, last)).unwrap_or_default();
    let found = records.iter().find(|read| has_key(read, asked));
    let answer = match found {
        Some(read) => {
            Answer::Found { place: Place { node: last as u32, offset: read.start as u32 } }
        }
        None => Answer::Absent { node: last as u32 },
    };
    let data = found.and_then(|read| in_image(last, &read.data));
    Lookup { answer, compared, path, path_len: road.len(), data }
}

/// The key of a record by its offset word, with the weights of its name.
fn key_at(node: &[u8], record: usize) -> (usize, Vec<u8>) {
    let start = number(&node[510 - 2 * record..512 - 2 * record]);
    let length = usize::from(node[start + 6]);
    (number(&node[start + 2..start + 6]), weights(&node[start + 7..start + 7 + length]))
}

/// The middle one of those left (of two, the later), on after it if it is not above, else before it.
fn halvings(keys: &[(usize, Vec<u8>)], wanted: &(usize, Vec<u8>)) -> u32 {
    if keys.is_empty() {
        return 0;
    }
    let middle = keys.len() / 2;
    let left = if keys[middle] <= *wanted { &keys[middle + 1..] } else { &keys[..middle] };
    1 + halvings(left, wanted)
}

/// Every leaf key, in other cases too, with names that begin it and that it begins, and some near it.
fn keys_worth_asking(built: &Built) -> Vec<Key> {
    let mut asked = vec![Key::new(0, b""), Key::new(u32::MAX, &[0xFF; 31])];
    for record in &built.records {
        let key = &record.key;
        let last = key.name.last().copied().unwrap_or(0);
        let near = [key.twin(), key.next(), key.prefix(), key.with_last(last ^ 1)];
        asked.extend(near.into_iter().flatten());
        asked.push(key.clone());
        asked.push(Key { parent: key.parent.wrapping_add(1), ..key.clone() });
        asked.push(Key { parent: key.parent ^ 1 << 31, ..key.clone() });
    }
    asked
}

fn assert_lookups(built: &Built, image: &[u8]) {
    let mut work = vec![0xA5; needed_work(image.len())];
    for asked in keys_worth_asking(built) {
        let got = lookup(image, asked.parent, &asked.name, &mut work);
        assert_eq!(got, lookup_by_brute_force(image, &asked), "{asked:?}");
    }
}

fn assert_salvages(built: &Built, image: &[u8]) {
    for asked in keys_worth_asking(built) {
        let got = salvage(image, asked.parent, &asked.name);
        assert_eq!(got, salvage_by_brute_force(image, &asked), "{asked:?}");
    }
}

#[test]
fn sound_trees() {
    for depth in 0..=8 {
        for seed in 500..510 {
            let mut plan = CatalogPlan::random(seed, depth, 8);
            plan.shape = Plan { old_garbage: true, free_nodes: 12, ..plan.shape };
            let built = build(&plan);
            assert_lookups(&built, &built.image);
            assert_salvages(&built, &built.image);
        }
    }
    for built in [samples::two_level(), samples::three_level()] {
        assert_lookups(&built, &built.image);
        assert_salvages(&built, &built.image);
    }
}

#[test]
fn every_key_is_found_where_it_was_built() {
    let built = samples::three_level();
    let mut work = vec![0; needed_work(built.image.len())];
    for record in &built.records {
        let found = lookup(&built.image, record.key.parent, &record.key.name, &mut work);
        assert!(matches!(found.answer, Answer::Found { .. }), "{:?}", record.key);
        assert_eq!(built.image[found.data.expect("found has data")], record.data);
    }
}

#[test]
fn changes_that_no_rule_judges() {
    let built = build(&CatalogPlan::random(520, 3, 5));
    for change in harmless(&built) {
        let mut image = built.image.clone();
        change.apply(&mut image);
        assert_lookups(&built, &image);
        assert_salvages(&built, &image);
    }
}

#[test]
fn spoiled_trees_are_salvaged() {
    let built = build(&CatalogPlan::random(521, 3, 5));
    for spoiling in spoilings(&built) {
        let mut image = built.image.clone();
        spoiling.apply(&mut image);
        if image.len() <= 33_554_432 {
            assert_salvages(&built, &image);
        }
    }
}

#[test]
fn trees_with_random_bytes_changed_are_salvaged() {
    let mut rng = Rng::new(522);
    for seed in 0..200 {
        let built = build(&CatalogPlan::random(seed, 1 + seed as usize % 3, 6));
        let mut image = built.image.clone();
        for _ in 0..rng.index(60) {
            let at = rng.index(image.len());
            image[at] = rng.next_u64() as u8;
        }
        image.truncate(rng.index(image.len() + 1));
        assert_salvages(&built, &image);
    }
}

#[test]
fn lengths() {
    let seen = salvage(&bench::cartridge(), 2, b"heights");
    assert_eq!(seen.data, Some(512 + 168..512 + 270));
    let mut long = bench::cartridge();
    long.resize(33_554_432, 0);
    assert_eq!(salvage(&long, 2, b"heights"), seen);
    // The last node there can be is looked at as well.
    long.copy_within(512..1_024, 65_535 * 512);
    long[512..1_024].fill(0);
    let place = Place { node: 65_535, offset: 154 };
    assert_eq!(salvage(&long, 2, b"heights").answer, SalvageAnswer::Seen { place });
    long.push(0);
    let refused = |number| SalvageAnswer::Refused { number, place: Place { node: 0, offset: 0 } };
    assert_eq!(salvage(&long, 2, b"heights").answer, refused(1));
    assert_eq!(salvage(&long, 2, &[b'n'; 32]).answer, refused(11));
}
