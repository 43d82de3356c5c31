//! Extents as they are to be shown.

use super::json::{list, number, Value};

/// The pairs of first block and block count: three of 16 bits, or eight of 32.
pub fn pairs(data: &[u8]) -> Vec<[u32; 2]> {
    let size = match data.len() {
        12 => 2,
        64 => 4,
        other => panic!("no record has {other} bytes of data"),
    };
    let read = |bytes: &[u8]| bytes.iter().fold(0, |number, byte| number << 8 | u32::from(*byte));
    data.chunks(2 * size).map(|pair| [read(&pair[..size]), read(&pair[size..])]).collect()
}

/// First block and block count of each, as the text has them.
pub fn shown(pairs: &[[u32; 2]]) -> String {
    let shown: Vec<String> =
        pairs.iter().map(|[first, count]| format!("{first} {count}")).collect();
    shown.join(", ")
}

pub fn value(pairs: &[[u32; 2]]) -> Value {
    list(pairs.iter().map(|pair| list(pair.map(number))))
}
