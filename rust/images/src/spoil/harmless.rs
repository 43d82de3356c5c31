//! Changes of bytes that no rule judges, after which an image is as sound as before.

use super::family::{visit_order, Member};
use super::keys::KeyFaults;
use super::{Moment, Patch, Place, Spoiling, Stage};
use crate::build::Built;
use crate::format::HEADER_MAP_AT;

/// Every change of this kind that is known for the image, each with number 0.
pub fn harmless<K: KeyFaults>(built: &Built<K>) -> Vec<Spoiling> {
    let mut found = vec![flipped(built, "reserved_header_byte".to_string(), 44)];
    found.push(flipped(built, "user_record_byte".to_string(), HEADER_MAP_AT - 1));
    for &number in &built.map_chain {
        let at = number as usize * built.format.node_size;
        let free = built.format.node_map().end..built.format.node_size - 4;
        let free = free.map(|offset| (format!("free_map_byte_{offset}"), at + offset));
        found.extend(free.map(|(what, at)| flipped(built, what, at)));
    }
    for member in visit_order(built) {
        let unjudged = K::unjudged(built, member).into_iter();
        found.extend(unjudged.map(|(what, patches)| harmless_change(built, what, patches)));
        found.extend(free_space(built, member));
    }
    found
}

/// The first byte after the records, where it is not the last offset word's.
fn free_space<K: KeyFaults>(built: &Built<K>, member: Member) -> Option<Spoiling> {
    let starts = member.starts(built);
    let free_at = starts[starts.len() - 1];
    let offsets_at = built.format.node_size - 2 * starts.len();
    let what = "free_byte".to_string();
    (free_at < offsets_at).then(|| flipped(built, what, member.at(built) + free_at))
}

fn flipped<K>(built: &Built<K>, what: String, at: usize) -> Spoiling {
    harmless_change(built, what, vec![flip(built, at)])
}

/// Changes every bit of a byte.
pub fn flip<K>(built: &Built<K>, at: usize) -> Patch {
    Patch::byte(at, !built.image[at])
}

fn harmless_change<K>(built: &Built<K>, what: String, patches: Vec<Patch>) -> Spoiling {
    let edited = patches[0].node(built.format);
    let moment = Moment::once(Stage::Never);
    Spoiling { what, edited, number: 0, place: Place::START, moment, patches }
}
