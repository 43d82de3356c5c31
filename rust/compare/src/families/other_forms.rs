//! Images of one format asked as if they had another, or a form that there is not.

use super::small;
use crate::comparison::Comparison;
use crate::form::Form;
use crate::keys;
use images::by_hand::three_levels_by_hand_in;
use images::node::{put16, put32, HEADER_MAP_AT, RECORDS_AT};
use images::{build, Format, Key, Plan, Rng};

/// Random forms that each image is asked as.
const RANDOM_FORMS: usize = 40;

pub fn other_forms(comparison: &mut Comparison, format: Format, seed: u64) {
    let mut rng = Rng::new(seed);
    for image in images_of(format, seed) {
        for meant in Format::all() {
            let asked = keys_of(format, meant, &image);
            comparison.ask_as(meant.into(), &image, keys::some(&mut rng, &asked, 4));
            if let Some(image) = with_header_of(meant, &image) {
                comparison.ask_as(meant.into(), &image, keys::some(&mut rng, &asked, 4));
            }
        }
        let asked = keys_of(format, format, &image);
        for form in Form::UNLISTED {
            comparison.ask_as(form, &image, keys::some(&mut rng, &asked, 2));
        }
        for _ in 0..RANDOM_FORMS {
            let form = Form::any(&mut rng);
            comparison.ask_as(form, &image, keys::some(&mut rng, &asked, 2));
        }
    }
}

/// Small images, and trees of 64 nodes, whose length is right in every form with nodes of listed sizes.
fn images_of(format: Format, seed: u64) -> Vec<Vec<u8>> {
    let mut images = vec![
        Vec::new(),
        small::empty_tree(format, 1),
        small::empty_tree(format, 64),
        small::l1(format),
        three_levels_by_hand_in(format),
        small::leaf_with(format, format.most_leaf_records()),
    ];
    for turn in 0..12 {
        let plan = Plan { map_nodes: 2, ..Plan::untidy_in(format, seed + turn, &[1, 2, 9]) };
        let free_nodes = 64 - 1 - plan.map_nodes - plan.tree_nodes();
        images.push(build(&Plan { free_nodes, ..plan }).image);
    }
    images
}

/// Keys that stand in the image if it is read as either format.
fn keys_of(format: Format, meant: Format, image: &[u8]) -> Vec<Key> {
    let mut asked = keys::at_record_places(format, image);
    asked.extend(keys::at_record_places(meant, image));
    asked.extend(keys::always());
    asked
}

/// The image with the sizes in its header that it should have in another format, so that the tests
/// after it see the rest; none of an image that is shorter than a node of it.
fn with_header_of(meant: Format, image: &[u8]) -> Option<Vec<u8>> {
    let size = meant.node_size;
    if image.len() < size {
        return None;
    }
    let total = image.len() / size;
    let mut image = image.to_vec();
    put16(&mut image, 32, size as u16);
    put16(&mut image, 34, meant.key_length());
    put32(&mut image, 36, total as u32);
    for (record, offset) in [RECORDS_AT, 0x78, HEADER_MAP_AT, size - 8].into_iter().enumerate() {
        put16(&mut image, size - 2 - 2 * record, offset as u16);
    }
    Some(image)
}
