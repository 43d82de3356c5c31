//! The place that the table has for each spoiling, and that a spoiled image is refused with it.

use super::{check, just_enough, key_at, long, lookup, named, refused, sizes, verdict, word};
use images::spoil::{Patch, Spoiling};
use images::{Built, Format, Key};
use reference::{editions, Place, Verdict};

/// The place by the table, worked out from what was changed and where.
fn place_by_table(built: &Built, spoiling: &Spoiling, spoiled: &[u8]) -> Place {
    let of_node = |node| Place { node, offset: 0 };
    match (spoiling.number, spoiling.what.as_str()) {
        (1 | 2 | 8 | 10, _) => of_node(0),
        // The header's link leads to a node that is no map node; that node is at fault.
        (3, "map_link_to_root") => of_node(built.levels[0].numbers[0]),
        (4, _) => changed_child_number(built, spoiling),
        (5, "header_depth_one_over" | "header_depth_one_short") => {
            of_node(built.levels[0].numbers[0])
        }
        // The first node met that should be an index node is a leaf, or the other way round.
        (5, "depth_and_levels_one_over") => of_node(built.levels[built.depth() - 1].numbers[0]),
        (5, "depth_and_levels_one_short") => of_node(built.levels[built.depth() - 2].numbers[0]),
        (6, _) => {
            let root = built.levels[0].numbers[0];
            let fault = first_key_fault(built.format, spoiled, root, &[], &[]);
            fault.expect("a key is wrong")
        }
        (7, _) => changed_link(built, spoiling),
        (9, _) => first_changed_map_byte(built, spoiled),
        _ => of_node(spoiling.edited),
    }
}

/// The nodes and offsets at which the image was changed.
fn changed(built: &Built, spoiling: &Spoiling) -> Vec<(u32, u32)> {
    let node_size = built.format.node_size;
    let place = |patch: &Patch| match patch {
        Patch::Write { at, .. } => ((at / node_size) as u32, (at % node_size) as u32),
        Patch::Resize(_) => panic!("{} changes the length", spoiling.name()),
    };
    spoiling.patches.iter().map(place).collect()
}

/// At 16 in the header, or after the key of an index record.
fn changed_child_number(built: &Built, spoiling: &Spoiling) -> Place {
    let [(node, offset)] = changed(built, spoiling)[..] else {
        panic!("{} changes more than a child number", spoiling.name());
    };
    let (key_size, _, record_size) = sizes(built.format);
    let is_root_field = (node, offset) == (0, 16);
    assert!(is_root_field || (offset as usize - 14) % record_size == key_size);
    Place { node, offset }
}

/// The only link that was changed or, of two, the back link, as that is looked at first.
fn changed_link(built: &Built, spoiling: &Spoiling) -> Place {
    let links = changed(built, spoiling);
    assert!(links.iter().all(|&(_, offset)| offset == 0 || offset == 4), "{}", spoiling.name());
    let back = links.iter().find(|&&(_, offset)| offset == 4);
    let &(node, offset) = back.unwrap_or(&links[0]);
    Place { node, offset }
}

/// The first byte along the chain: from F8 in the header up to its four offset words, then from 0E
/// in each map node up to its two, before which HFS Plus leaves two bytes free.
fn first_changed_map_byte(built: &Built, spoiled: &[u8]) -> Place {
    let node_size = built.format.node_size as u32;
    let node_map_end = node_size - if built.format == Format::HFS { 4 } else { 6 };
    let in_header = (0xF8..node_size - 8).map(|offset| (0, offset));
    let in_map_nodes =
        built.map_chain.iter().flat_map(|&node| (0x0E..node_map_end).map(move |at| (node, at)));
    let is_changed = |&(node, offset): &(u32, u32)| {
        let at = (node * node_size + offset) as usize;
        built.image[at] != spoiled[at]
    };
    let first = in_header.chain(in_map_nodes).find(is_changed);
    let (node, offset) = first.expect("a map byte was changed");
    Place { node, offset }
}

/// Walks the tree in the order of tests up to the first key that breaks a rule; `lows` are the
/// pointers of the path, the node's own last, and `highs` the keys after them in their nodes.
fn first_key_fault(
    format: Format,
    image: &[u8],
    number: u32,
    lows: &[Key],
    highs: &[Key],
) -> Option<Place> {
    let node = &image[number as usize * format.node_size..][..format.node_size];
    let (key_size, leaf_size, index_size) = sizes(format);
    let is_leaf = node[8] == 0xFF;
    let size = if is_leaf { leaf_size } else { index_size };
    let count = word(node, 10) as usize;
    let starts: Vec<usize> = (0..count).map(|record| 14 + size * record).collect();
    let keys: Vec<Key> = starts.iter().map(|&start| key_at(format, node, start)).collect();
    for (record, &key) in keys.iter().enumerate() {
        let breaks_a_rule = record > 0 && key <= keys[record - 1]
            || lows.iter().any(|&low| key < low)
            || highs.iter().any(|&high| key >= high)
            || record == 0 && lows.last().is_some_and(|&pointer| key != pointer);
        if breaks_a_rule {
            return Some(Place { node: number, offset: starts[record] as u32 });
        }
    }
    let below = if is_leaf { 0 } else { count };
    (0..below).find_map(|record| {
        let lows = [lows, &keys[record..=record]].concat();
        let after = keys.get(record + 1).copied();
        let highs: Vec<Key> = highs.iter().copied().chain(after).collect();
        first_key_fault(format, image, long(node, starts[record] + key_size), &lows, &highs)
    })
}

pub fn assert_refused(built: &Built, spoiling: &Spoiling) {
    let (format, name) = (built.format, spoiling.name());
    let mut image = built.image.clone();
    spoiling.apply(&mut image);
    let Place { node, offset } = place_by_table(built, spoiling, &image);
    let fault = verdict(spoiling.number, node, offset);
    assert_eq!((spoiling.place.node, spoiling.place.offset), (node, offset), "{format:?} {name}");
    assert_eq!(check(format, &image), fault, "{format:?} {name}");
    let asked = Key::new(16, 0x00, 5);
    assert_eq!(lookup(format, &image, asked), refused(fault), "{format:?} {name}");
    if spoiling.number != 1 {
        assert_cleared(format, &image, fault);
    }
}

/// A fault of 2 to 10 leaves zeros in the needed bytes, and the further ones as they were.
fn assert_cleared(format: Format, image: &[u8], fault: Verdict) {
    let (edition, node_size) = named(format);
    let needed = just_enough(format, image).len();
    let mut work = vec![0x5A; needed + 2];
    assert_eq!(editions::check(edition, node_size, image, &mut work), fault);
    assert_eq!(work, [&vec![0; needed][..], &[0x5A; 2]].concat());
}
