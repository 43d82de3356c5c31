//! Asks in a named format, and what the request's words say of each.

pub mod table;

use images::{Built, Edition, Format, Key};
use reference::editions::{self, needed_work};
use reference::{Answer, Lookup, Place, Salvage, SalvageAnswer, Verdict};

/// What is worked out by hand for a node size of HFS Plus.
pub struct BySize {
    pub node_size: usize,
    /// 14 + 76c + 2(c + 1) is at most the node size.
    pub most_leaf_records: usize,
    /// 14 + 16c + 2(c + 1) is at most the node size.
    pub most_index_records: usize,
    /// The node size less 256.
    pub header_map_bytes: usize,
    /// The node size less 20.
    pub map_node_bytes: usize,
}

/// For each size the most leaf records, index records, map bytes in the header and in a map node.
pub const BY_SIZE: [BySize; 7] = [
    by_size(512, 6, 27, 256, 492),
    by_size(1_024, 12, 56, 768, 1_004),
    by_size(2_048, 26, 112, 1_792, 2_028),
    by_size(4_096, 52, 226, 3_840, 4_076),
    by_size(8_192, 104, 454, 7_936, 8_172),
    by_size(16_384, 209, 909, 16_128, 16_364),
    by_size(32_768, 419, 1_819, 32_512, 32_748),
];

const fn by_size(
    node_size: usize,
    most_leaf_records: usize,
    most_index_records: usize,
    header_map_bytes: usize,
    map_node_bytes: usize,
) -> BySize {
    BySize { node_size, most_leaf_records, most_index_records, header_map_bytes, map_node_bytes }
}

pub const SOUND: Verdict = verdict(0, 0, 0);

pub const fn verdict(number: u32, node: u32, offset: u32) -> Verdict {
    Verdict { number, place: Place { node, offset } }
}

pub fn refused(fault: Verdict) -> Lookup {
    let Verdict { number, place } = fault;
    let answer = Answer::Refused { number, place };
    Lookup { answer, compared: 0, path: [0; 8], path_len: 0, data: None }
}

pub fn salvage_refused(number: u32) -> Salvage {
    let place = Place { node: 0, offset: 0 };
    Salvage { answer: SalvageAnswer::Refused { number, place }, data: None }
}

/// The edition and the node size as a caller says them.
pub fn named(format: Format) -> (u32, u32) {
    let edition = match format.edition {
        Edition::Hfs => 0,
        Edition::HfsPlus => 1,
    };
    (edition, format.node_size as u32)
}

/// What is lent holds something, as no answer depends on it.
pub fn just_enough(format: Format, image: &[u8]) -> Vec<u8> {
    vec![0xA5; needed_work(format.node_size as u32, image.len())]
}

pub fn check(format: Format, image: &[u8]) -> Verdict {
    let (edition, node_size) = named(format);
    editions::check(edition, node_size, image, &mut just_enough(format, image))
}

pub fn lookup(format: Format, image: &[u8], asked: Key) -> Lookup {
    let (edition, node_size) = named(format);
    let Key { file, fork, start } = asked;
    let mut work = just_enough(format, image);
    editions::lookup(edition, node_size, image, file, fork, start, &mut work)
}

pub fn salvage(format: Format, image: &[u8], asked: Key) -> Salvage {
    let (edition, node_size) = named(format);
    let Key { file, fork, start } = asked;
    editions::salvage(edition, node_size, image, file, fork, start)
}

/// How many bytes a key takes, and with it a leaf record and an index record.
pub fn sizes(format: Format) -> (usize, usize, usize) {
    match format.edition {
        Edition::Hfs => (8, 20, 12),
        Edition::HfsPlus => (12, 76, 16),
    }
}

pub fn word(bytes: &[u8], at: usize) -> u32 {
    u32::from(bytes[at]) << 8 | u32::from(bytes[at + 1])
}

pub fn long(bytes: &[u8], at: usize) -> u32 {
    word(bytes, at) << 16 | word(bytes, at + 2)
}

/// The key whose length field stands at `at`.
pub fn key_at(format: Format, bytes: &[u8], at: usize) -> Key {
    match format.edition {
        Edition::Hfs => Key::new(long(bytes, at + 2), bytes[at + 1], word(bytes, at + 6)),
        Edition::HfsPlus => Key::new(long(bytes, at + 4), bytes[at + 2], long(bytes, at + 8)),
    }
}

/// Every leaf key, its lawful neighbours and the ends of the range.
pub fn keys_worth_asking(built: &Built) -> Vec<Key> {
    let format = built.format;
    let highest_start = if format.edition == Edition::Hfs { 65_535 } else { u32::MAX };
    let mut asked = vec![Key::new(0, 0x00, 0), Key::new(u32::MAX, 0xFF, highest_start)];
    for record in &built.records {
        let rank = format.rank_of(record.key);
        let neighbours = [rank + 1, rank.saturating_sub(1)].map(|rank| format.key_of_rank(rank));
        asked.extend([record.key, neighbours[0], neighbours[1]]);
    }
    asked.sort_unstable();
    asked.dedup();
    asked
}
