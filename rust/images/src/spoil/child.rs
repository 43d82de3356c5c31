//! Number 4: child numbers that cannot be.

use super::family::{visit_order, Member};
use super::{Moment, Patch, Place, Spoiling, Stage, Step};
use crate::build::Built;
use crate::node::index_starts;

pub fn spoilings<K>(built: &Built<K>) -> Vec<Spoiling> {
    let order = visit_order(built);
    let mut found = Vec::new();
    for (visit, &member) in order.iter().enumerate() {
        let moment = Moment::at(Stage::Tree, visit as u32, Step::Child);
        for (what, value) in wrong_numbers(built, member) {
            found.push(spoiling(built, member, moment, &what, value));
        }
    }
    found
}

/// Numbers that cannot stand where the number of this node stands.
fn wrong_numbers<K>(built: &Built<K>, member: Member) -> Vec<(String, u32)> {
    let mut wrong = vec![("0", 0), ("total", built.total()), ("far_out", u32::MAX)];
    if let Some((parent, _)) = member.parent(built) {
        wrong.push(("parent", parent.number(built)));
        wrong.push(("root", built.levels[0].numbers[0]));
        // The node before on the level has been visited by then, with all its ancestors.
        wrong.extend(member.before(built).map(|number| ("neighbour", number)));
    }
    let map_nodes = built.map_chain.iter();
    let map_nodes = map_nodes.map(|&number| (format!("map_node_{number}"), number));
    wrong.into_iter().map(|(what, number)| (what.to_string(), number)).chain(map_nodes).collect()
}

fn spoiling<K>(
    built: &Built<K>,
    member: Member,
    moment: Moment,
    what: &str,
    value: u32,
) -> Spoiling {
    let (what, at) = match member.parent(built) {
        None => (format!("root_is_{what}"), 16),
        Some((parent, record)) => {
            let start = index_starts(built.format, record)[record];
            let at = parent.at(built) + start + built.format.key_size();
            (format!("child_{record}_is_{what}"), at)
        }
    };
    let place = Place::of_byte(built.format, at);
    let patches = vec![Patch::long(at, value)];
    Spoiling { what, edited: place.node, number: 4, place, moment, patches }
}
