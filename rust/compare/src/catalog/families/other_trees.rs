//! Catalogs asked as extents trees, and extents trees asked as catalogs.

use crate::catalog::comparison::CatalogComparison;
use crate::catalog::keys;
use crate::keys as extents_keys;
use images::by_hand::three_levels_by_hand_in;
use images::catalog::{bench, build, CatalogPlan};
use images::node::put16;
use images::{Format, Plan, Rng};

const KEY_LENGTH_AT: usize = 34;

/// So many random trees of each kind.
const TREES: u64 = 300;

/// Nodes of 512 bytes, as a catalog has them.
const EXTENTS: [Format; 2] = [Format::HFS, Format::plus(512)];

pub fn other_trees(comparison: &mut CatalogComparison, seed: u64) {
    let mut rng = Rng::new(seed);
    for image in catalogs(seed) {
        for meant in EXTENTS {
            as_extents(comparison, &mut rng, meant, &image);
            as_extents(comparison, &mut rng, meant, &with_key_length(meant, &image));
        }
    }
    for image in EXTENTS.into_iter().flat_map(|format| extents(format, seed)) {
        as_catalog(comparison, &mut rng, &image);
        as_catalog(comparison, &mut rng, &with_key_length(Format::CATALOG, &image));
    }
}

fn as_extents(comparison: &mut CatalogComparison, rng: &mut Rng, meant: Format, image: &[u8]) {
    let mut asked = extents_keys::at_record_places(meant, image);
    asked.extend(extents_keys::always());
    comparison.ask_as_extents(meant, image, extents_keys::some(rng, &asked, 4));
}

fn as_catalog(comparison: &mut CatalogComparison, rng: &mut Rng, image: &[u8]) {
    let mut asked = keys::at_record_places(image);
    asked.extend(keys::always());
    comparison.ask(image, keys::some(rng, &asked, 4));
}

fn catalogs(seed: u64) -> Vec<Vec<u8>> {
    let random =
        (0..TREES).map(|turn| build(&CatalogPlan::random(seed + turn, turn as usize % 5, 9)));
    let bench = [bench::empty_tree(1), bench::cartridge(), bench::two_leaves()];
    random.map(|built| built.image).chain(bench).collect()
}

fn extents(format: Format, seed: u64) -> Vec<Vec<u8>> {
    let plan = |turn: u64| Plan::random_in(format, seed + turn, turn as usize % 5, 9);
    let random = (0..TREES).map(|turn| images::build(&plan(turn)).image);
    random.chain([three_levels_by_hand_in(format)]).collect()
}

/// The image with the key length that its header should have in the other tree, so that the tests after
/// it see the rest.
fn with_key_length(meant: Format, image: &[u8]) -> Vec<u8> {
    let mut image = image.to_vec();
    put16(&mut image, KEY_LENGTH_AT, meant.key_length());
    image
}
