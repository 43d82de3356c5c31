//! `trees` of volumes that the test itself lays out, with other block sizes and first sectors.

use crate::common::{extents, run, scratch, Ran};
use images::catalog::entry::{pair_bytes, Pairs};
use images::catalog::{self, CatalogPlan};
use images::node::{put16, put32};
use images::{Key, Plan, Rng};
use reference::{write_tree, Verdict};
use std::fs;

/// A volume's blocks, and where the first of them stands.
#[derive(Clone, Copy, Debug)]
struct Layout {
    block_size: usize,
    first_sector: u16,
}

impl Layout {
    fn byte(self, block: u16) -> usize {
        512 * usize::from(self.first_sector) + self.block_size * usize::from(block)
    }

    fn blocks(self, size: usize) -> usize {
        size.div_ceil(self.block_size)
    }
}

/// Runs of blocks: the first one and how many they are.
type Pieces = Vec<(u16, u16)>;

/// Pieces of so many blocks each, in no order, with gaps here and there.
fn scattered(rng: &mut Rng, counts: &[usize]) -> Pieces {
    let mut order: Vec<usize> = (0..counts.len()).collect();
    rng.shuffle(&mut order);
    let mut pieces = vec![(0, 0); counts.len()];
    let mut block = rng.index(3);
    for piece in order {
        pieces[piece] = (block as u16, counts[piece] as u16);
        block += counts[piece] + rng.index(3);
    }
    pieces
}

/// So many blocks in pieces of one to three.
fn shares(rng: &mut Rng, blocks: usize) -> Vec<usize> {
    let mut counts = Vec::new();
    let mut left = blocks;
    while left > 0 {
        let count = (1 + rng.index(3)).min(left);
        counts.push(count);
        left -= count;
    }
    counts
}

fn three(pieces: &[(u16, u16)]) -> Pairs {
    let mut pairs = [(0, 0); 3];
    pairs[..pieces.len()].copy_from_slice(pieces);
    pairs
}

/// The row of extents records that has the catalog's pieces but the first three, among records of others.
fn row(pieces: &[(u16, u16)]) -> Vec<u8> {
    let blocks = |pieces: &[(u16, u16)]| pieces.iter().map(|piece| u32::from(piece.1)).sum::<u32>();
    let others = [(9, 1), (8, 1), (7, 1)];
    let mut records = vec![(Key::new(3, 0x00, 3), others), (Key::new(4, 0xFF, 3), others)];
    for (index, later) in pieces.chunks(3).enumerate().skip(1) {
        let start = blocks(&pieces[..3 * index]);
        records.push((Key::new(4, 0x00, start), three(later)));
        // Another fork and another file have other pieces from the same block on.
        records.push((Key::new(4, 0xFF, start + 1), others));
        records.push((Key::new(5, 0x00, start), others));
    }
    records.sort();
    let bytes = |(key, pairs): &(Key, Pairs)| [&key.bytes()[..], &pair_bytes(*pairs)].concat();
    records.iter().flat_map(bytes).collect()
}

/// The extents tree over a row, in so many nodes.
fn extents_tree(row: &[u8], nodes: usize) -> Vec<u8> {
    let mut tree = vec![0; 512 * nodes];
    assert_eq!(write_tree(row, &mut tree), Verdict::SOUND);
    tree
}

/// A volume of noise but for its master directory block and both trees.
fn lay_out(rng: &mut Rng, layout: Layout, trees: [(&[u8], &Pieces); 2]) -> Vec<u8> {
    let pieces = trees.iter().flat_map(|(_, pieces)| pieces.iter());
    let end = pieces.map(|(first, count)| layout.byte(first + count)).max();
    let mut volume = vec![0; end.expect("there are pieces").max(1_024 + 162)];
    rng.fill(&mut volume);
    put16(&mut volume, 1_024, 0x4244);
    put32(&mut volume, 1_024 + 20, layout.block_size as u32);
    put16(&mut volume, 1_024 + 28, layout.first_sector);
    for ((tree, pieces), at) in trees.into_iter().zip([1_024 + 130, 1_024 + 146]) {
        put32(&mut volume, at, tree.len() as u32);
        let first = three(&pieces[..pieces.len().min(3)]);
        volume[at + 4..at + 16].copy_from_slice(&pair_bytes(first));
        put_tree(&mut volume, layout, tree, pieces);
    }
    volume
}

fn put_tree(volume: &mut [u8], layout: Layout, tree: &[u8], pieces: &Pieces) {
    let numbers = pieces.iter().flat_map(|&(first, count)| first..first + count);
    for (part, block) in tree.chunks(layout.block_size).zip(numbers) {
        volume[layout.byte(block)..][..part.len()].copy_from_slice(part);
    }
}

fn line(name: &str, verdict: &str, tree: &[u8], pieces: &Pieces) -> String {
    let pairs: Vec<[u32; 2]> = pieces.iter().map(|&(s, n)| [s.into(), n.into()]).collect();
    format!("{name}: {verdict}, {} bytes, pieces {}\n", tree.len(), extents::shown(&pairs))
}

fn assert_cut(test: &str, volume: &[u8], [extents, catalog]: [(&[u8], &Pieces); 2]) {
    let folder = scratch(test);
    let (file, trees) = (folder.join("volume.img"), folder.join("trees"));
    fs::write(&file, volume).expect("a file can be written");
    let Ran { status, out, err } =
        run(["trees", file.to_str().expect("text"), trees.to_str().expect("text")]);
    let lines = line("extents.img", "sound", extents.0, extents.1)
        + &line("catalog.img", "not checked", catalog.0, catalog.1);
    assert_eq!((status, &*out, &*err), (0, &*lines, ""));
    assert!(fs::read(trees.join("extents.img")).expect("the file is there") == extents.0);
    assert!(fs::read(trees.join("catalog.img")).expect("the file is there") == catalog.0);
}

/// Lays a catalog out in many pieces, cuts it out again, and says into how many pieces it went.
fn assert_comes_back(test: &str, rng: &mut Rng, layout: Layout, catalog: &[u8]) -> usize {
    let extents_nodes = 12 + rng.index(6);
    let catalog_counts = shares(rng, layout.blocks(catalog.len()));
    let extents_counts = {
        let blocks = layout.blocks(512 * extents_nodes);
        let first = 1 + rng.index(blocks);
        [first, blocks - first]
    };
    let extents_counts: Vec<usize> =
        extents_counts.into_iter().filter(|count| *count > 0).collect();
    let counts = [&extents_counts[..], &catalog_counts].concat();
    let mut extents_pieces = scattered(rng, &counts);
    let catalog_pieces = extents_pieces.split_off(extents_counts.len());
    let extents = extents_tree(&row(&catalog_pieces), extents_nodes);
    let trees = [(&extents[..], &extents_pieces), (catalog, &catalog_pieces)];
    assert_cut(test, &lay_out(rng, layout, trees), trees);
    catalog_pieces.len()
}

/// A catalog of so many nodes, which is sound.
fn catalog_of(seed: u64, nodes: usize) -> Vec<u8> {
    let mut plan = CatalogPlan::untidy(seed, &[1, 9]);
    plan.shape = Plan { free_nodes: nodes - 11, ..plan.shape };
    let built = catalog::build(&plan);
    assert_eq!(built.image.len(), 512 * nodes);
    built.image
}

#[test]
fn other_block_sizes_and_first_sectors() {
    let mut catalogs = [catalog::samples::two_level(), catalog::samples::three_level()]
        .map(|built| built.image)
        .to_vec();
    // An odd number of nodes leaves a block of 1,024 bytes or more partly used.
    catalogs.extend([17, 101, 203].map(|nodes| catalog_of(nodes as u64, nodes)));
    let (mut rng, mut most_pieces) = (Rng::new(4_500), 0);
    for block_size in [512, 1_024, 1_536, 2_048, 4_096] {
        for first_sector in [3, 4, 5, 38, 300] {
            let layout = Layout { block_size, first_sector };
            for catalog in &catalogs {
                let test = "other_block_sizes_and_first_sectors";
                let pieces = assert_comes_back(test, &mut rng, layout, catalog);
                most_pieces = most_pieces.max(pieces);
            }
        }
    }
    assert!(most_pieces > 60, "{most_pieces}");
}

/// The generator's own trees, neither a multiple of the block size, in three pieces each.
#[test]
fn trees_of_the_generator_in_three_pieces() {
    let test = "trees_of_the_generator_in_three_pieces";
    let extents = images::samples::falling_map_nodes().image;
    let catalog = catalog_of(4_501, 45);
    for (block_size, first_sector) in [(1_024, 9), (2_048, 7), (4_096, 12)] {
        let layout = Layout { block_size, first_sector };
        assert!([&extents, &catalog].iter().all(|tree| !tree.len().is_multiple_of(block_size)));
        let rest = |tree: &[u8]| layout.blocks(tree.len()) as u16 - 2;
        let catalog_pieces = vec![(80, 1), (30, rest(&catalog) - 1), (11, 2)];
        let extents_pieces = vec![(5, 1), (60, rest(&extents)), (2, 1)];
        let trees = [(&extents[..], &extents_pieces), (&catalog[..], &catalog_pieces)];
        let mut rng = Rng::new(4_502);
        assert_cut(test, &lay_out(&mut rng, layout, trees), trees);
    }
}

/// A volume may end where the catalog does, amid a block, and a piece may have more blocks than it needs.
#[test]
fn a_volume_that_ends_with_the_catalog() {
    let layout = Layout { block_size: 2_048, first_sector: 6 };
    let extents = images::samples::two_level().image;
    let catalog = catalog_of(4_503, 17);
    let (extents_pieces, catalog_pieces) = (vec![(1, 16)], vec![(20, 2), (30, 9)]);
    let trees = [(&extents[..], &extents_pieces), (&catalog[..], &catalog_pieces)];
    let mut volume = lay_out(&mut Rng::new(4_504), layout, trees);
    // Two blocks of it come first, which leaves 9 of its 17 nodes.
    let end = layout.byte(30) + 9 * 512;
    for length in [volume.len(), end + 1, end] {
        volume.truncate(length);
        assert_cut("a_volume_that_ends_with_the_catalog", &volume, trees);
    }
    volume.truncate(end - 1);
    let folder = scratch("a_volume_that_ends_with_the_catalog");
    let (file, trees) = (folder.join("volume.img"), folder.join("trees"));
    fs::write(&file, volume).expect("a file can be written");
    let refused = run(["trees", file.to_str().expect("text"), trees.to_str().expect("text")]);
    assert_eq!((refused.status, trees.exists()), (3, false), "{}", refused.out);
}
