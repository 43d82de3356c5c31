//! Every answer about sound volumes, as the request's words have it over the two lists of leaf records.

use images::spoil::spoilings;
use images::volume::{build, samples, FileFork, Fit, Piece, Volume, VolumePlan};
use images::{catalog as built_catalog, Rng};
use reference::block::{block, Image, Mapping};
use reference::catalog::{Entry, Key};
use reference::{catalog, leaf_records, needed_work, Place};
use std::ops::Range;

fn ask(volume: &Volume, key: &built_catalog::Key, fork: u8, file_block: u16) -> Mapping {
    let (catalog, extents) = (&volume.catalog.image[..], &volume.extents.image[..]);
    let mut catalog_work = vec![0xA5; needed_work(catalog.len())];
    let mut extents_work = vec![0x5A; needed_work(extents.len())];
    let work = (&mut catalog_work[..], &mut extents_work[..]);
    block(catalog, work.0, extents, work.1, key.parent, &key.name, fork, file_block)
}

/// The place of a record of which the image has these bytes.
fn part_of(image: &[u8], bytes: &[u8]) -> Range<usize> {
    let at = bytes.as_ptr() as usize - image.as_ptr() as usize;
    at..at + bytes.len()
}

fn refused(number: u32, image: Image) -> Mapping {
    let place = Place { node: 0, offset: 0 };
    Mapping { number, image, place, volume_block: 0, part: 0..0 }
}

/// The blocks of three pairs one by one, as many as a file can have.
fn all_blocks(pairs: &[u8]) -> impl Iterator<Item = u32> + use<'_> {
    let word = |at: usize| u32::from(u16::from_be_bytes([pairs[at], pairs[at + 1]]));
    [0, 4, 8].into_iter().flat_map(move |at| (0..word(at + 2)).map(move |n| word(at) + n))
}

fn in_pairs(pairs: &[u8], index: u16, found: impl FnOnce(u32) -> Mapping) -> Option<Mapping> {
    all_blocks(pairs).nth(index.into()).map(found)
}

fn on_volume(found: Mapping) -> Mapping {
    match found.volume_block {
        0..=65_535 => found,
        _ => refused(18, found.image),
    }
}

/// By the leaf lists alone, of a key that is there.
fn by_leaf_lists(volume: &Volume, key: &built_catalog::Key, fork: u8, file_block: u16) -> Mapping {
    let image = &volume.catalog.image;
    let asked = Key { parent: key.parent, name: &key.name };
    let record = catalog::leaf_records(image).into_iter().find(|record| record.key == asked);
    let record = record.expect("the catalog has the key");
    let Some(Entry::File(file)) = Entry::read(record.data) else {
        return refused(24, Image::Catalog);
    };
    let pairs = if fork == 0x00 { &record.data[74..86] } else { &record.data[86..98] };
    let place = Place { node: record.node, offset: record.start };
    let part = part_of(image, pairs);
    let in_file_record = in_pairs(pairs, file_block, |volume_block| Mapping {
        number: 0,
        image: Image::Catalog,
        place,
        volume_block,
        part,
    });
    let later = || by_extents(volume, (file.file_id, fork, file_block));
    in_file_record.or_else(later).map_or(refused(17, Image::Extents), on_volume)
}

/// By the last of the leaf records that is not above.
fn by_extents(volume: &Volume, asked: (u32, u8, u16)) -> Option<Mapping> {
    let records = leaf_records(&volume.extents.image).into_iter();
    let mut not_above = records.filter(|it| (it.key.file, it.key.fork, it.key.start) <= asked);
    let last = not_above.next_back()?;
    if (last.key.file, last.key.fork) != (asked.0, asked.1) {
        return None;
    }
    let at = last.node as usize * 512 + last.start as usize + 8;
    in_pairs(&last.data, asked.2 - last.key.start, |volume_block| Mapping {
        number: 0,
        image: Image::Extents,
        place: Place { node: last.node, offset: last.start },
        volume_block,
        part: at..at + 12,
    })
}

/// The ends of each pair and of each record, and the blocks right beside them.
fn boundaries(fork: &FileFork) -> Vec<u16> {
    let mut found = vec![0, 65_535];
    for Piece { start, pairs } in fork.fork.pieces() {
        let mut at = u32::from(start);
        found.extend(beside(at));
        for (_, count) in pairs {
            at += u32::from(count);
            found.extend(beside(at));
        }
    }
    found.sort_unstable();
    found.dedup();
    found
}

fn beside(block: u32) -> impl Iterator<Item = u16> {
    (block.saturating_sub(1)..=block + 1).filter_map(|block| u16::try_from(block).ok())
}

#[test]
fn agrees_with_the_leaf_lists() {
    let mut covered = [0, 0];
    for seed in 0..60 {
        for fit in [Fit::Whole, Fit::Partly] {
            let volume = build(&VolumePlan::random(seed, seed as usize % 4, 5, fit));
            for fork in &volume.forks {
                for file_block in boundaries(fork) {
                    let said = ask(&volume, &fork.key, fork.fork_byte, file_block);
                    let expected = by_leaf_lists(&volume, &fork.key, fork.fork_byte, file_block);
                    assert_eq!(said, expected, "seed {seed} {fit:?} {fork:?} {file_block}");
                    covered[said.image as usize] += u32::from(said.number == 0);
                }
            }
        }
    }
    assert!(covered[0] > 1_000 && covered[1] > 1_000, "{covered:?} covered");
}

#[test]
fn other_records_are_no_files() {
    let volume = samples::two_level();
    for record in &volume.catalog.records {
        let number = ask(&volume, &record.key, 0x00, 0).number;
        assert_eq!(number == 24, record.data[0] != 2, "{:?}", record.key);
    }
}

/// Where nothing is unusual, a file's blocks are those of all its pairs, one after the other.
#[test]
fn regular_forks_block_by_block() {
    let volume = samples::regular();
    for fork in &volume.forks {
        let pairs = fork.fork.pieces().flat_map(|piece| piece.pairs);
        let blocks = pairs.flat_map(|(first, count)| (0..count).map(move |n| first + n));
        let mut file_block = 0;
        for volume_block in blocks {
            let said = ask(&volume, &fork.key, fork.fork_byte, file_block);
            assert_eq!((said.number, said.volume_block), (0, u32::from(volume_block)));
            file_block += 1;
        }
        assert_eq!(ask(&volume, &fork.key, fork.fork_byte, file_block).number, 17);
    }
}

#[test]
fn a_fault_is_the_first_image_s() {
    let mut rng = Rng::new(7);
    let volume = samples::two_level();
    let (in_catalog, in_extents) = (spoilings(&volume.catalog), spoilings(&volume.extents));
    let key = &volume.forks[0].key;
    for _ in 0..400 {
        let spoilings =
            [&in_catalog[rng.index(in_catalog.len())], &in_extents[rng.index(in_extents.len())]];
        let mut images = [volume.catalog.image.clone(), volume.extents.image.clone()];
        let spoiled = [rng.flip(), rng.flip()];
        for index in [0, 1] {
            if spoiled[index] {
                spoilings[index].apply(&mut images[index]);
            }
        }
        let lent = images.each_ref().map(|image| vec![0xA5; needed_work(image.len())]);
        let [mut catalog_work, mut extents_work] = lent.clone();
        let work = (&mut catalog_work, &mut extents_work);
        let said = block(&images[0], work.0, &images[1], work.1, key.parent, &key.name, 0x00, 0);
        let first = [0, 1].into_iter().find(|&index| spoiled[index]);
        match first {
            None => assert!([0, 17, 18].contains(&said.number)),
            Some(index) => {
                assert_eq!((said.number, said.image as usize), (spoilings[index].number, index));
            }
        }
        if spoiled[0] {
            assert_eq!(extents_work, lent[1]);
        }
    }
}
