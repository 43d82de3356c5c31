//! Bytes that were never an image, images with a byte changed, and images of wrong lengths.

mod agreement;

use agreement::Agreement;
use images::by_hand::three_levels_by_hand;
use images::{bench, build, samples, Key, Plan, Rng};

const NODE_SIZE: usize = 512;

#[test]
fn noise() {
    let (mut agreement, mut rng) = (Agreement::new(9), Rng::new(9));
    for _ in 0..1_000 {
        let len = if rng.flip() { rng.index(8) * NODE_SIZE } else { rng.index(8 * NODE_SIZE) };
        let mut image = vec![0; len];
        rng.fill(&mut image);
        agreement.ask(&image, &[any_key(&mut rng)]);
        agreement.ask(&behind_a_header(&mut rng), &[any_key(&mut rng)]);
    }
    let answered: Vec<u32> = agreement.verdicts.keys().copied().collect();
    assert_eq!(answered, [1, 2, 3, 4, 5, 16]);
}

/// A good header with small numbers in its fields, and noise behind it.
fn behind_a_header(rng: &mut Rng) -> Vec<u8> {
    let mut image = bench::empty_tree(2 + rng.index(6) as u32);
    rng.fill(&mut image[NODE_SIZE..]);
    image[15] = 1 + rng.index(8) as u8;
    for field in [0, 16, 20, 24, 28] {
        image[field + 3] = rng.index(9) as u8;
    }
    image
}

fn any_key(rng: &mut Rng) -> Key {
    Key::from_rank(rng.next_u64() >> 15)
}

/// Leaves stand where they should not, and salvage sees their records all the same.
#[test]
fn nodes_in_another_order() {
    let (mut agreement, mut rng) = (Agreement::new(10), Rng::new(10));
    for seed in 0..400 {
        let built = build(&Plan::random(seed, 1 + seed as usize % 4, 6));
        let mut nodes: Vec<&[u8]> = built.image.chunks_exact(NODE_SIZE).collect();
        // As often as not the header goes elsewhere too, and a leaf may stand first, where none is seen.
        let first = rng.index(2);
        rng.shuffle(&mut nodes[first..]);
        let keys = [0; 3].map(|_| built.records[rng.index(built.records.len())].key);
        agreement.ask(&nodes.concat(), &keys);
    }
    assert!(agreement.salvages[&13] > 1_000, "{:?}", agreement.salvages);
}

#[test]
fn single_bytes_of_small_images() {
    let mut agreement = Agreement::new(11);
    for image in [bench::e1(), bench::l1()] {
        change_each(&mut agreement, image, |byte| (1..=255).map(|change| byte ^ change).collect());
    }
    let usual =
        |byte: u8| vec![0, 1, 2, 7, 0xFF, byte.wrapping_add(1), byte.wrapping_sub(1), byte ^ 0x80];
    for image in [bench::leaf_with(22), bench::index_with(3), three_levels_by_hand()] {
        change_each(&mut agreement, image, usual);
    }
    let answered: Vec<u32> = agreement.verdicts.keys().copied().collect();
    assert_eq!(answered, [0, 2, 3, 4, 5, 6, 7, 8, 9, 10, 16]);
}

fn change_each(agreement: &mut Agreement, mut image: Vec<u8>, values: impl Fn(u8) -> Vec<u8>) {
    let keys = [Key::new(10, 0x00, 0)];
    for at in 0..image.len() {
        let byte = image[at];
        for value in values(byte) {
            image[at] = value;
            agreement.ask(&image, &keys);
        }
        image[at] = byte;
    }
}

#[test]
fn wrong_lengths() {
    let mut agreement = Agreement::new(12);
    for built in [samples::two_level(), samples::falling_map_nodes()] {
        let key = built.records[built.records.len() / 2].key;
        let len = built.image.len();
        for wrong in [0, 1, 511, 512, 513, len - 512, len - 1, len + 1, len + 512, 33_554_433] {
            let mut image = built.image.clone();
            image.resize(wrong, 0);
            agreement.ask(&image, &[key]);
        }
    }
    let answered: Vec<u32> = agreement.verdicts.keys().copied().collect();
    assert_eq!(answered, [1, 2, 16]);
    assert!(agreement.salvages.contains_key(&13) && agreement.salvages.contains_key(&1));
}
