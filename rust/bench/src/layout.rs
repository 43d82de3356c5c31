//! Where the nodes and the fields of a written image are, so that they can be changed.

use crate::written::NODE_SIZE;
use images::rows::map_nodes;
use std::ops::Range;

const LINKS_AND_DESCRIPTOR: [Range<usize>; 3] = [0..4, 4..8, 8..14];
const RECORDS_AT: usize = 14;
const KEY_SIZE: usize = 8;

/// Nodes of one kind, and the fields of each.
pub struct Part {
    pub nodes: Range<usize>,
    pub fields: Vec<Range<usize>>,
}

/// The header, the map nodes, the leaves and the index nodes of an image that has no free node.
pub fn parts(image: &[u8]) -> [Part; 4] {
    let nodes = image.len() / NODE_SIZE;
    let first_leaf = 1 + map_nodes(nodes);
    let last_leaf = u32::from_be_bytes([image[28], image[29], image[30], image[31]]) as usize;
    [
        Part { nodes: 0..1, fields: header_fields() },
        Part { nodes: 1..first_leaf, fields: map_fields() },
        Part { nodes: first_leaf..last_leaf + 1, fields: record_fields(20, 22) },
        Part { nodes: last_leaf + 1..nodes, fields: record_fields(12, 35) },
    ]
}

/// Those of the header record one by one, the map record and the offset words.
fn header_fields() -> Vec<Range<usize>> {
    let record = [14..16, 16..20, 20..24, 24..28, 28..32, 32..34, 34..36, 36..40, 40..44];
    let later = [44..120, 120..248, 248..504, 504..512];
    LINKS_AND_DESCRIPTOR.into_iter().chain(record).chain(later).collect()
}

fn map_fields() -> Vec<Range<usize>> {
    LINKS_AND_DESCRIPTOR.into_iter().chain([14..508, 508..512]).collect()
}

/// Keys and what they lead to, of the first record, one in the middle and the last; the offset words.
fn record_fields(size: usize, count: usize) -> Vec<Range<usize>> {
    let starts = [0, count / 2, count - 1].map(|record| RECORDS_AT + record * size);
    let of_record = |start: usize| {
        let data = start + KEY_SIZE;
        [start..start + 2, start + 2..data, data..start + size]
    };
    let words = NODE_SIZE - 2 * (count + 1)..NODE_SIZE;
    LINKS_AND_DESCRIPTOR
        .into_iter()
        .chain(starts.into_iter().flat_map(of_record))
        .chain([words])
        .collect()
}
