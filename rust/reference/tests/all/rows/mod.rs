//! Keys to ask for many at once, and the trees to ask.

use images::by_hand::file_key;
use images::{build, samples, Built, Key, Plan};
use reference::{Place, Verdict};

pub const SOUND: Verdict = at_start(0);
pub const LENGTH: Verdict = at_start(1);
pub const SHORT_ROW: Verdict = at_start(15);
pub const TOO_FEW: Verdict = at_start(16);

/// L1's only key, (16, 00, 5), and where its data start: after a node, 14 bytes and 8 of the key.
pub const GOOD: u64 = 268_435_461;
pub const GOOD_AT: u32 = 534;

pub const TWO_TO_THE_56: u64 = 72_057_594_037_927_936;

/// What a result holds before a call; no image is so long.
pub const OLD: u32 = 4_000_000_000;

pub const fn at_start(number: u32) -> Verdict {
    Verdict { number, place: Place { node: 0, offset: 0 } }
}

pub fn packed(key: Key) -> u64 {
    u64::from(key.file) * 16_777_216 + u64::from(key.fork) * 65_536 + u64::from(key.start)
}

pub fn file(file: u32) -> u64 {
    packed(file_key(file))
}

/// Lent bytes of which none is zero and no two neighbours are alike.
pub fn pattern(len: usize) -> Vec<u8> {
    (0..len).map(|at| (at % 251) as u8 + 1).collect()
}

/// Every leaf key, its lawful neighbours, the same with wrong fork bytes or too high, and the ends.
pub fn keys_worth_asking(built: &Built) -> Vec<u64> {
    let mut asked = vec![0, TWO_TO_THE_56 - 1, TWO_TO_THE_56, u64::MAX];
    for (index, record) in built.records.iter().enumerate() {
        let (key, rank) = (record.key, record.key.rank());
        let wrong_fork = Key { fork: 1 + (index % 254) as u8, ..key };
        let neighbours = [Key::from_rank(rank.saturating_sub(1)), Key::from_rank(rank + 1)];
        asked.extend([key, wrong_fork].map(packed));
        asked.extend(neighbours.map(packed));
        asked.push(packed(key) + (TWO_TO_THE_56 << (index % 8)));
    }
    asked
}

pub fn small_samples() -> [Built; 4] {
    [
        samples::two_level(),
        samples::three_level(),
        samples::longest_listed(),
        samples::falling_map_nodes(),
    ]
}

/// Trees of every depth.
pub fn random_trees(seeds: std::ops::Range<u64>, widest: usize) -> impl Iterator<Item = Built> {
    (0..=8).flat_map(move |depth| {
        seeds.clone().map(move |seed| build(&Plan::random(seed, depth, widest)))
    })
}
