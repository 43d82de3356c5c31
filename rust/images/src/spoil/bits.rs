//! Number 9: wrong map bits.

use super::{Moment, Patch, Place, Spoiling, Stage, Step};
use crate::build::Built;
use crate::node::map_byte_at;
use std::ops::Range;

pub fn spoilings<K>(built: &Built<K>) -> Vec<Spoiling> {
    let single = single_bits(built).into_iter().map(|bit| {
        let what = format!("bit_{bit}_flipped");
        flipped(built, what, &[bit])
    });
    let pairs = two_bits(built).into_iter().map(|[lowest, other]| {
        let what = format!("bits_{lowest}_and_{other}_flipped");
        flipped(built, what, &[lowest, other])
    });
    single.chain(pairs).collect()
}

/// The bits of every node and, beyond them, the next one and the ends of the map records.
fn single_bits<K>(built: &Built<K>) -> Vec<usize> {
    let total = built.total() as usize;
    let records = map_records(built);
    let carried = records[records.len() - 1].end;
    let ends = records.iter().flat_map(|bits| [bits.start, bits.end - 1]);
    let beyond = ends.chain([total]).filter(|bit| (total..carried).contains(bit));
    let mut bits: Vec<usize> = (0..total).chain(beyond).collect();
    bits.sort_unstable();
    bits.dedup();
    bits
}

/// Two bits in bytes far apart, lower first: of the two, the table asks for the lower one.
fn two_bits<K>(built: &Built<K>) -> Vec<[usize; 2]> {
    let records = map_records(built);
    let very_last = records[records.len() - 1].end - 1;
    let across = records.iter().map(|bits| [bits.start, very_last]);
    let on_both_sides = records.windows(2).map(|pair| [pair[0].end - 1, pair[1].start]);
    across.chain(on_both_sides).collect()
}

/// The bits of every map record, the header's first, numbered along the chain.
fn map_records<K>(built: &Built<K>) -> Vec<Range<usize>> {
    let (in_header, in_map_node) = (built.format.header_bits(), built.format.map_node_bits());
    let ends = (0..=built.map_chain.len()).map(|nodes| in_header + nodes * in_map_node);
    let starts = [0].into_iter().chain(ends.clone());
    starts.zip(ends).map(|(start, end)| start..end).collect()
}

/// Flips bits of different bytes, the lowest first.
fn flipped<K>(built: &Built<K>, what: String, bits: &[usize]) -> Spoiling {
    let byte_at = |bit| map_byte_at(built.format, &built.map_chain, bit);
    let flip = |&bit: &usize| {
        let at = byte_at(bit);
        Patch::byte(at, built.image[at] ^ (0x80 >> (bit % 8)))
    };
    let place = Place::of_byte(built.format, byte_at(bits[0]));
    Spoiling {
        what,
        edited: place.node,
        number: 9,
        place,
        moment: Moment::at(Stage::Bits, bits[0] as u32, Step::Whole),
        patches: bits.iter().map(flip).collect(),
    }
}
