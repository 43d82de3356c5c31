//! Any bytes at all get an answer, and only catalogs that keep the rules are called sound.

use images::catalog::{bench, build, CatalogPlan};
use images::{bench as extents, Rng};
use reference::catalog::{check, leaf_records, lookup, salvage, Entry};
use reference::{needed_work, Answer, Place, Verdict};

/// Asks everything; what is called sound must also behave as sound.
fn ask_everything(image: &[u8]) {
    let mut work = vec![0xA5; needed_work(image.len())];
    let verdict = check(image, &mut work);
    let records = leaf_records(image);
    lookup(image, 2, b"Heights", &mut work);
    salvage(image, 2, b"Heights");
    for listed in &records {
        assert!(Entry::read(listed.data).is_some());
    }
    if verdict != Verdict::SOUND {
        return;
    }
    assert!(records.is_sorted_by(|a, b| a.key < b.key));
    for listed in records.iter().take(20) {
        let place = Place { node: listed.node, offset: listed.start };
        let found = lookup(image, listed.key.parent, listed.key.name, &mut work);
        assert_eq!(found.answer, Answer::Found { place });
        assert_eq!(&image[found.data.expect("found has data")], listed.data);
    }
}

#[test]
fn random_bytes() {
    let mut rng = Rng::new(1);
    for _ in 0..2_000 {
        let mut image = vec![0; rng.index(6 * 512)];
        rng.fill(&mut image);
        ask_everything(&image);
    }
}

#[test]
fn every_byte_changed() {
    for mut image in [bench::empty_tree(2), bench::cartridge(), bench::two_leaves()] {
        for at in 0..image.len() {
            let byte = image[at];
            for change in [0x01, 0x02, 0x04, 0x20, 0x80, 0xFF] {
                image[at] = byte ^ change;
                ask_everything(&image);
            }
            image[at] = byte;
        }
    }
}

#[test]
fn trees_with_random_bytes_changed() {
    let mut rng = Rng::new(2);
    for seed in 0..400 {
        let mut image = build(&CatalogPlan::random(seed, seed as usize % 5, 6)).image;
        for _ in 0..=rng.index(3) {
            let at = rng.index(image.len());
            image[at] = rng.next_u64() as u8;
        }
        ask_everything(&image);
    }
}

#[test]
fn every_length() {
    let image = bench::two_leaves();
    for len in 0..=image.len() {
        ask_everything(&image[..len]);
    }
}

#[test]
fn the_other_tree() {
    // Their headers have another key length, whatever else is right.
    for image in [extents::l1(), extents::two_leaves(), extents::e1()] {
        assert_eq!(check(&image, &mut [0]).number, 2);
    }
    for image in [bench::cartridge(), bench::two_leaves(), bench::empty_tree(1)] {
        assert_eq!(reference::check(&image, &mut [0]).number, 2);
    }
}
