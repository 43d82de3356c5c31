//! Which images are written, and under which names.

use images::bench::*;
use images::by_hand::three_levels_by_hand;
use images::rows::{self, Row};
use images::spoil::{spoilings, KeyFaults, Spoiling};
use images::{bench_plus, catalog, samples, volume, Built, Format, Key};
use reference::{write_tree, Verdict};
use std::collections::BTreeMap;

/// An image with the name of its file and the format it is to be read in.
pub struct Sample {
    pub name: String,
    pub format: Format,
    pub image: Vec<u8>,
    /// The leaf records that it was laid down from, if it was.
    pub row: Option<Vec<u8>>,
}

pub fn catalogue() -> Vec<Sample> {
    let mut all = bench_samples();
    all.extend(pointer_samples());
    all.push(sample("three_levels_by_hand", three_levels_by_hand()));
    all.extend(with_spoiled("two_level", samples::two_level()));
    all.extend(with_spoiled("three_level", samples::three_level()));
    all.extend(with_spoiled("falling_map_nodes", samples::falling_map_nodes()));
    all.push(sample("longest_listed", samples::longest_listed().image));
    all.push(sample("three_level_large", samples::three_level_large().image));
    all.push(sample("needed_map_nodes", samples::needed_map_nodes().image));
    all.push(sample("largest_of_100_nodes", samples::largest_of(100).image));
    all.push(sample("largest_of_6000_nodes", samples::largest_of(6_000).image));
    all.push(sample("largest", samples::largest().image));
    all.extend(plus_bench_samples());
    all.extend(with_spoiled("plus_512_three_level", samples::three_level_plus()));
    all.extend(with_spoiled("plus_4096_two_level", samples::two_level_plus()));
    all.extend(catalog_bench_samples());
    all.extend(with_spoiled("catalog_two_level", catalog::samples::two_level()));
    all.extend(with_spoiled("catalog_three_level", catalog::samples::three_level()));
    all.push(catalog_sample("largest", catalog::samples::largest().image));
    all.push(catalog_sample("largest_mixed", catalog::samples::largest_mixed().image));
    all.extend(volume_samples());
    all.push(written_sample("written_two_level", &rows::two_level(), rows::TWO_LEVEL_NODES));
    all
}

fn bench_samples() -> Vec<Sample> {
    vec![
        sample("length_0", Vec::new()),
        sample("length_511", vec![0; 511]),
        sample("zeros_512", vec![0; 512]),
        sample("length_33554944", vec![0; 33_554_944]),
        sample("e1", e1()),
        sample("e1_map_byte_00", e1_with_map_byte(0x00)),
        sample("e1_map_byte_c0", e1_with_map_byte(0xC0)),
        sample("e1_free_1", e1_with_free_1()),
        sample("l1", l1()),
        sample("l1_back_link_1", l1_with_back_link_1()),
        sample("leaf_22_records", leaf_with(22)),
        sample("leaf_23_records", leaf_with(23)),
        sample("index_35_records", index_with(35)),
        sample("index_36_records", index_with(36)),
        sample("two_leaves", two_leaves()),
        sample("two_leaves_levels_from_the_root", two_leaves_with_levels(1, 2)),
        sample("nodes_2048_no_map_node", empty_tree(2_048)),
        sample("nodes_2049_no_map_node", empty_tree(2_049)),
        sample("map_node_linked_to_itself", map_node_linked_to_itself()),
    ]
}

/// The tree of two leaves with pointers that are not the first keys of their children.
fn pointer_samples() -> [Sample; 3] {
    let below = two_leaves_with_pointer(1, Key::new(16, 0x00, 6));
    let first_below = two_leaves_with_pointer(0, Key::new(16, 0x00, 4));
    let at_last = two_leaves_with_pointer(1, Key::new(17, 0x00, 0));
    [
        sample("two_leaves_pointer_below_first_key", below),
        sample("two_leaves_first_pointer_below_first_key", first_below),
        sample("two_leaves_pointer_at_last_key", at_last),
    ]
}

/// HFS Plus images; their names say the node size that they are to be read in.
fn plus_bench_samples() -> Vec<Sample> {
    let in_512 = |name: &str, image| plus_sample(512, name, image);
    let in_4096 = |name: &str, image| plus_sample(4_096, name, image);
    vec![
        in_512("e1", bench_plus::e1()),
        in_512("e1_map_byte_00", bench_plus::e1_with_map_byte(0x00)),
        in_512("e1_map_byte_c0", bench_plus::e1_with_map_byte(0xC0)),
        in_512("e1_free_1", bench_plus::e1_with_free_1()),
        in_512("l1", bench_plus::l1()),
        in_512("l1_back_link_1", bench_plus::l1_with_back_link_1()),
        in_512("l1_pad_a5", bench_plus::l1_with_pad(0xA5)),
        in_512("leaf_6_records", bench_plus::leaf_with(512, 6)),
        in_512("leaf_7_records", bench_plus::leaf_with(512, 7)),
        in_512("index_27_records", bench_plus::index_with(512, 27)),
        in_512("index_28_records", bench_plus::index_with(512, 28)),
        in_512("map_node_linked_to_itself", bench_plus::map_node_linked_to_itself(512)),
        in_512("l1_in_nodes_of_1024", bench_plus::l1_in(1_024)),
        in_4096("two_full_leaves", bench_plus::two_full_leaves()),
        in_4096("leaf_52_records", bench_plus::leaf_with(4_096, 52)),
        in_4096("leaf_53_records", bench_plus::leaf_with(4_096, 53)),
    ]
}

/// Images of catalogs.
fn catalog_bench_samples() -> Vec<Sample> {
    let pointer = |name: &[u8]| {
        let key = catalog::Key::new(2, name);
        catalog::bench::two_leaves_with_pointer(&key)
    };
    let all = [
        ("empty", catalog::bench::empty_tree(1)),
        ("cartridge", catalog::bench::cartridge()),
        ("cartridge_back_link_1", catalog::bench::cartridge_with_back_link_1()),
        ("leaf_8_records", catalog::bench::leaf_with(8)),
        ("leaf_9_records", catalog::bench::leaf_with(9)),
        ("leaf_up_to_its_offset_words", catalog::bench::full_leaf(7)),
        ("leaf_into_its_offset_words", catalog::bench::full_leaf(8)),
        ("index_11_records", catalog::bench::index_with(11)),
        ("index_12_records", catalog::bench::index_with(12)),
        ("two_leaves", catalog::bench::two_leaves()),
        ("two_leaves_pointer_in_other_case", pointer(b"COWS")),
        ("two_leaves_pointer_prefix_of_first_key", pointer(b"cow")),
        ("case_twins_under_two_parents", catalog::bench::case_twins([2, 3])),
        ("case_twins_under_one_parent", catalog::bench::case_twins([2, 2])),
        ("prefix_below", catalog::bench::two_names([b"ab", b"abc"])),
        ("prefix_above", catalog::bench::two_names([b"abc", b"ab"])),
    ];
    all.into_iter().map(|(name, image)| catalog_sample(name, image)).collect()
}

/// The catalog and the extents of one volume.
fn volume_samples() -> [Sample; 2] {
    let catalog = sample("block_catalog", volume::bench::cartridge_catalog());
    let extents = sample("block_extents", volume::bench::cartridge_extents());
    [Sample { format: Format::CATALOG, ..catalog }, extents]
}

/// What the reference lays down from a row, in so many nodes.
fn written_sample(name: &str, row: &Row, nodes: usize) -> Sample {
    let mut image = vec![0; nodes * Format::HFS.node_size];
    assert_eq!(write_tree(&row.bytes, &mut image), Verdict::SOUND, "{name}");
    Sample { row: Some(row.bytes.clone()), ..sample(name, image) }
}

/// The sound image, and two spoiled versions for each thing that can be wrong with it.
fn with_spoiled<K: KeyFaults>(name: &str, built: Built<K>) -> Vec<Sample> {
    // The first of a kind lies near the root and the last one in a leaf, so both are kept.
    let mut kinds: BTreeMap<(u32, String), Vec<Spoiling>> = BTreeMap::new();
    for spoiling in spoilings(&built) {
        let kind = (spoiling.number, kind_of(&spoiling.what));
        let kept = kinds.entry(kind).or_default();
        kept.truncate(1);
        kept.push(spoiling);
    }
    let in_format = |name: &str, image| Sample { format: built.format, ..sample(name, image) };
    let mut all = vec![in_format(name, built.image.clone())];
    for spoiling in kinds.values().flatten() {
        let mut image = built.image.clone();
        spoiling.apply(&mut image);
        // A long one of zeros is among the bench images already.
        if image.len() <= 2 * built.image.len() {
            all.push(in_format(&format!("{name}_{}", spoiling.name()), image));
        }
    }
    all
}

/// What is wrong without the numbers in it, so that faults of different records are of one kind.
fn kind_of(what: &str) -> String {
    what.chars().filter(|c| !c.is_ascii_digit()).collect()
}

fn plus_sample(node_size: usize, name: &str, image: Vec<u8>) -> Sample {
    let format = Format::plus(node_size);
    Sample { format, ..sample(&format!("plus_{node_size}_{name}"), image) }
}

fn catalog_sample(name: &str, image: Vec<u8>) -> Sample {
    let format = Format::CATALOG;
    Sample { format, ..sample(&format!("catalog_{name}"), image) }
}

fn sample(name: &str, image: Vec<u8>) -> Sample {
    let name = name.to_string();
    Sample { name, format: Format::HFS, image, row: None }
}
