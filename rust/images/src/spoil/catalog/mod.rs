//! Changes of the keys and records of a catalog.

mod index_form;
mod leaf_form;
mod order;
mod pointers;
mod relaid;
mod unjudged;

use super::family::Member;
use super::keys::KeyFaults;
use super::{Patch, Spoiling};
use crate::catalog::{Built, Key};

impl KeyFaults for Key {
    fn unlawful(built: &Built, member: Member) -> Vec<(String, Patch)> {
        if member.is_leaf(built) {
            leaf_form::faults(built, member)
        } else {
            index_form::faults(built, member)
        }
    }

    fn misplaced(built: &Built) -> Vec<Spoiling> {
        order::spoilings(built)
    }

    fn unjudged(built: &Built, member: Member) -> Vec<(String, Vec<Patch>)> {
        unjudged::changes(built, member)
    }
}

/// Where a record starts in the image.
fn record_at(built: &Built, member: Member, record: usize) -> usize {
    member.at(built) + member.starts(built)[record]
}

/// The first and the last record of a node, or its only one.
fn ends(built: &Built, member: Member) -> Vec<usize> {
    let last = member.record_count(built) - 1;
    if last == 0 {
        vec![0]
    } else {
        vec![0, last]
    }
}
