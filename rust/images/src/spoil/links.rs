//! Number 7: wrong links between the nodes of a level.

use super::family::{visit_order, Member};
use super::{Moment, Patch, Place, Spoiling, Stage, Step};
use crate::build::Built;

const FORWARD: usize = 0;
const BACK: usize = 4;

pub fn spoilings<K>(built: &Built<K>) -> Vec<Spoiling> {
    let order = visit_order(built);
    let mut found = Vec::new();
    for (visit, &member) in order.iter().enumerate() {
        let at = member.at(built);
        let back = Moment::at(Stage::Tree, visit as u32, Step::BackLink);
        let forward = forward_moment(built, &order, member);
        for (what, value) in wrong_links(built, member, member.before(built)) {
            let patches = vec![Patch::long(at + BACK, value)];
            found.push(spoiling(built, format!("back_link_{what}"), at + BACK, back, patches));
        }
        let after = member.after(built).map(|after| after.number(built));
        for (what, value) in wrong_links(built, member, after) {
            let patches = vec![Patch::long(at + FORWARD, value)];
            found.push(spoiling(
                built,
                format!("forward_link_{what}"),
                at + FORWARD,
                forward,
                patches,
            ));
        }
        for (what, patches) in with_wrong_back_link(built, member) {
            found.push(spoiling(built, what.to_string(), at + BACK, back, patches));
        }
    }
    found
}

/// A forward link is looked at from the next node on the level, or after the walk if it is the last.
fn forward_moment<K>(built: &Built<K>, order: &[Member], member: Member) -> Moment {
    match member.after(built) {
        None => Moment::at(Stage::LevelEnds, member.level as u32, Step::Whole),
        Some(after) => {
            let visit = order.iter().position(|&visited| visited == after);
            let visit = visit.expect("every node of the tree is visited");
            Moment::at(Stage::Tree, visit as u32, Step::ForwardLinkBefore)
        }
    }
}

fn wrong_links<K>(
    built: &Built<K>,
    member: Member,
    right: Option<u32>,
) -> Vec<(&'static str, u32)> {
    let mut wrong = vec![("to_itself", member.number(built)), ("far_out", u32::MAX)];
    if right.is_some() {
        wrong.push(("0", 0));
    }
    wrong
}

/// Two wrong links, of which the node's back link is looked at first.
fn with_wrong_back_link<K>(built: &Built<K>, member: Member) -> Vec<(&'static str, Vec<Patch>)> {
    let at = member.at(built);
    let own = vec![Patch::long(at + BACK, u32::MAX), Patch::long(at + FORWARD, u32::MAX)];
    let mut found = vec![("both_links_far_out", own)];
    if let Some(before) = member.before(built) {
        let before_at = before as usize * built.format.node_size;
        let cut = vec![Patch::long(at + BACK, 0), Patch::long(before_at + FORWARD, 0)];
        found.push(("cut_off_from_the_node_before", cut));
    }
    found
}

fn spoiling<K>(
    built: &Built<K>,
    what: String,
    link_at: usize,
    moment: Moment,
    patches: Vec<Patch>,
) -> Spoiling {
    let place = Place::of_byte(built.format, link_at);
    Spoiling { what, edited: place.node, number: 7, place, moment, patches }
}
