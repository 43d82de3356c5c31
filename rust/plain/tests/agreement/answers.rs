//! What the plain reader should say where the reference has said this.

use plain::{Lookup, Salvage, Verdict};
use reference::{Answer, Place, SalvageAnswer};
use std::ops::Range;

const ABSENT: u32 = 12;
const SEEN: u32 = 13;
const NOT_SEEN: u32 = 14;

pub fn verdict_of(verdict: reference::Verdict) -> Verdict {
    numbered(verdict.number, verdict.place)
}

pub fn lookup_of(image: &[u8], lookup: reference::Lookup) -> Lookup<'_> {
    let verdict = match lookup.answer {
        Answer::Found { place } => numbered(0, place),
        Answer::Absent { node } => numbered(ABSENT, Place { node, offset: 0 }),
        Answer::Refused { number, place } => numbered(number, place),
    };
    let reference::Lookup { compared, path, path_len, .. } = lookup;
    Lookup { verdict, compared, path, path_len, data: data_in(image, lookup.data) }
}

pub fn salvage_of(image: &[u8], salvage: reference::Salvage) -> Salvage<'_> {
    let verdict = match salvage.answer {
        SalvageAnswer::Seen { place } => numbered(SEEN, place),
        SalvageAnswer::NotSeen => numbered(NOT_SEEN, Place { node: 0, offset: 0 }),
        SalvageAnswer::Refused { number, place } => numbered(number, place),
    };
    Salvage { verdict, data: data_in(image, salvage.data) }
}

fn numbered(number: u32, place: Place) -> Verdict {
    Verdict { number, node: place.node, offset: place.offset }
}

fn data_in(image: &[u8], range: Option<Range<usize>>) -> Option<&[u8; 12]> {
    range.map(|range| image[range].try_into().expect("12 bytes of data"))
}
