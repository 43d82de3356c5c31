//! The images that the paper lists, in every format, under every fork byte.

use super::small;
use crate::comparison::Comparison;
use crate::keys;
use images::by_hand::three_levels_by_hand_in;
use images::{bench as hfs, bench_plus as plus, Edition, Format, Key, Rng};

pub fn bench(comparison: &mut Comparison, format: Format, seed: u64) {
    let mut rng = Rng::new(seed);
    for image in in_format(format).into_iter().chain(by_edition(format)) {
        let forks = (0x00..=0xFF).map(|fork| Key::new(16, fork, 5));
        let in_image = keys::at_record_places(format, &image).into_iter().take(400);
        let asked: Vec<Key> = in_image.chain(forks).chain(keys::always()).collect();
        comparison.ask(&image, keys::affordable(&mut rng, asked, &image));
    }
}

/// What the list has in every format.
fn in_format(format: Format) -> Vec<Vec<u8>> {
    let Format { node_size, .. } = format;
    let (leaf, index) = (format.most_leaf_records(), format.most_index_records());
    vec![
        Vec::new(),
        vec![0; node_size - 1],
        vec![0; node_size],
        small::empty_tree(format, 1),
        small::l1(format),
        small::leaf_with(format, leaf),
        small::leaf_with(format, leaf + 1),
        small::index_with(format, index),
        small::index_with(format, index + 1),
        small::map_node_linked_to_itself(format),
        three_levels_by_hand_in(format),
    ]
}

/// What it has in HFS, and in HFS Plus at one node size.
fn by_edition(format: Format) -> Vec<Vec<u8>> {
    match (format.edition, format.node_size) {
        (Edition::Hfs, _) => vec![
            vec![0; 33_554_944],
            hfs::e1_with_map_byte(0x00),
            hfs::e1_with_map_byte(0xC0),
            hfs::e1_with_free_1(),
            hfs::l1_with_back_link_1(),
            hfs::two_leaves(),
            hfs::two_leaves_with_levels(1, 2),
            hfs::two_leaves_with_levels(1, 0),
            hfs::two_leaves_with_levels(2, 0),
            hfs::two_leaves_with_pointer(1, Key::new(16, 0x00, 6)),
            hfs::two_leaves_with_pointer(0, Key::new(16, 0x00, 4)),
            hfs::two_leaves_with_pointer(1, Key::new(17, 0x00, 0)),
            hfs::empty_tree(2_048),
            hfs::empty_tree(2_049),
        ],
        (Edition::HfsPlus, 512) => vec![
            plus::e1_with_map_byte(0x00),
            plus::e1_with_map_byte(0xC0),
            plus::e1_with_free_1(),
            plus::l1_with_back_link_1(),
            plus::l1_with_pad(0x01),
            plus::l1_with_pad(0xFF),
            plus::empty_tree(512, 2_048),
            plus::empty_tree(512, 2_049),
        ],
        (Edition::HfsPlus, 4_096) => vec![plus::two_full_leaves()],
        (Edition::HfsPlus, _) => Vec::new(),
    }
}
