//! Which blocks to ask a volume for.

use super::question::Asked;
use crate::catalog::keys as catalog_keys;
use images::catalog::{any_name, other_case, Key, MOST_NAME};
use images::volume::{FileFork, Volume, DATA_FORK, RESOURCE_FORK};
use images::{Record, Rng};

/// A volume is asked for as many blocks as this many bytes have room for it, but not for fewer than
/// `LEAST_ASKED`.
const MOST_BYTES: usize = 4_000_000;
const LEAST_ASKED: usize = 40;

const FORKS: [u8; 2] = [DATA_FORK, RESOURCE_FORK];

/// Every fork at its boundaries, every record that is no file, and keys that are not there or not lawful.
pub fn all(rng: &mut Rng, volume: &Volume) -> Vec<Asked> {
    let mut asked: Vec<Asked> =
        volume.forks.iter().flat_map(|fork| at_boundaries(fork, &volume.extents.records)).collect();
    for record in &volume.catalog.records {
        let key = record.key.clone();
        asked.push(Asked { key, fork: FORKS[rng.index(2)], block: any_block(rng) });
    }
    for key in catalog_keys::always() {
        asked.push(Asked { key, fork: FORKS[rng.index(2)], block: any_block(rng) });
    }
    asked
}

/// All of them or, of a longer volume, fewer.
pub fn affordable(rng: &mut Rng, volume: &Volume) -> Vec<Asked> {
    let len = volume.catalog.image.len() + volume.extents.image.len();
    let most = (MOST_BYTES / len).max(LEAST_ASKED);
    let asked = all(rng, volume);
    if asked.len() <= most {
        asked
    } else {
        some(rng, &asked, most)
    }
}

/// Some of the questions, one in four changed a little.
pub fn some(rng: &mut Rng, asked: &[Asked], count: usize) -> Vec<Asked> {
    (0..count)
        .map(|_| {
            let mut chosen = asked[rng.index(asked.len())].clone();
            if rng.index(4) == 0 {
                change(rng, &mut chosen);
            }
            chosen
        })
        .collect()
}

/// Whatever would be a key if a record stood where the offset words of any node say, in any fork.
pub fn in_any_bytes(rng: &mut Rng, catalog: &[u8], count: usize) -> Vec<Asked> {
    let mut keys = catalog_keys::at_record_places(catalog);
    keys.extend(catalog_keys::always());
    (0..count)
        .map(|_| {
            let key = keys[rng.index(keys.len())].clone();
            Asked { key, fork: FORKS[rng.index(2)], block: any_block(rng) }
        })
        .collect()
}

/// A fork at the start and the end of each of its pairs, in the file record and in all the extents
/// records of its file and fork, and at the blocks right beside them.
pub fn at_boundaries(fork: &FileFork, records: &[Record]) -> Vec<Asked> {
    let of_fork =
        |record: &&Record| (record.key.file, record.key.fork) == (fork.id, fork.fork_byte);
    let pieces = records.iter().filter(of_fork).map(|record| (record.key.start, counts(record)));
    let first = (0, fork.fork.first.map(|(_, count)| u32::from(count)));
    let mut blocks = vec![0, u16::MAX];
    for (start, counts) in [first].into_iter().chain(pieces) {
        let mut at = start;
        blocks.extend(beside(at));
        for count in counts {
            at += count;
            blocks.extend(beside(at));
        }
    }
    blocks.sort_unstable();
    blocks.dedup();
    let ask = |block| Asked { key: fork.key.clone(), fork: fork.fork_byte, block };
    blocks.into_iter().map(ask).collect()
}

/// The block counts in the data of an extents record.
fn counts(record: &Record) -> [u32; 3] {
    [2, 6, 10].map(|at| u16::from_be_bytes([record.data[at], record.data[at + 1]]).into())
}

fn beside(block: u32) -> impl Iterator<Item = u16> {
    (block.saturating_sub(1)..=block + 1).filter_map(|block| u16::try_from(block).ok())
}

/// Low more often than not, as most files are short.
fn any_block(rng: &mut Rng) -> u16 {
    [rng.index(30) as u16, rng.next_u64() as u16, u16::MAX][rng.index(3)]
}

/// Another fork byte, another block, the name in other bytes of the same weights, or another name, which
/// may be too long.
fn change(rng: &mut Rng, asked: &mut Asked) {
    match rng.index(5) {
        0 => asked.fork = !asked.fork,
        1 => asked.fork = rng.next_u64() as u8,
        2 => asked.block = any_block(rng),
        3 => asked.key.name = other_case(rng, &asked.key.name),
        _ => {
            let more = any_name(rng, MOST_NAME);
            asked.key = Key::new(asked.key.parent, &[&asked.key.name[..], &more].concat());
        }
    }
}
