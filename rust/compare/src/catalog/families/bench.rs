//! The catalogs on the bench, and nodes of every number of records.

use crate::catalog::comparison::CatalogComparison;
use crate::catalog::keys;
use images::catalog::{bench as made, Key};

pub fn bench(comparison: &mut CatalogComparison, _: u64) {
    every_two_bytes(comparison);
    for image in small().into_iter().chain(by_count()).chain(by_order()) {
        let mut asked = keys::at_record_places(&image);
        asked.extend(keys::always());
        // Names of every length, up to more than there can be.
        asked.extend((0..=40).map(|length| Key::new(23, &vec![b'N'; length])));
        asked.extend((15..=28).map(|parent| Key::new(parent, b"")));
        comparison.ask(&image, asked);
    }
}

fn small() -> Vec<Vec<u8>> {
    let pointer = |name: &[u8]| made::two_leaves_with_pointer(&Key::new(2, name));
    vec![
        Vec::new(),
        vec![0; 511],
        vec![0; 512],
        made::empty_tree(1),
        made::empty_tree(2_048),
        made::empty_tree(2_049),
        made::cartridge(),
        made::cartridge_with_back_link_1(),
        made::two_leaves(),
        pointer(b"COWS"),
        pointer(b"cow"),
        pointer(b"cows\0"),
        pointer(b"dogs"),
    ]
}

fn by_count() -> impl Iterator<Item = Vec<u8>> {
    let leaves = (1..=9).map(made::leaf_with);
    let index_nodes = (1..=12).map(made::index_with);
    let last_names = (0..=31).map(made::full_leaf);
    leaves.chain(index_nodes).chain(last_names)
}

/// Every two bytes as the names of two records, which says the order of all of them.
fn every_two_bytes(comparison: &mut CatalogComparison) {
    for low in 0..=255 {
        for high in 0..=255 {
            comparison.ask(&made::two_names([&[low], &[high]]), [Key::new(2, &[high])]);
        }
    }
}

/// Case twins, parents with the top bit set, and names that begin others.
fn by_order() -> impl Iterator<Item = Vec<u8>> {
    let twins = [[2, 2], [2, 3], [3, 2], [1, 1 << 31], [1 << 31, 1]].map(made::case_twins);
    let prefixes: [[&[u8]; 2]; 4] = [[b"", b"\0"], [b"\0", b""], [b"ab", b"ABC"], [b"abc", b"AB"]];
    let prefixes = prefixes.map(made::two_names);
    twins.into_iter().chain(prefixes)
}
