//! The tree laid out by hand: lookups whose answers, paths and counts are worked out from its picture.

use crate::lent::lookup;
use images::by_hand::three_levels_by_hand;
use reference::{Answer, Place};

fn found_at(node: u32, offset: u32) -> Answer {
    Answer::Found { place: Place { node, offset } }
}

#[track_caller]
fn looks_up(file: u32, answer: Answer, path: &[u32], compared: u32) {
    let found = lookup(&three_levels_by_hand(), file, 0x00, 0);
    assert_eq!(found.answer, answer);
    assert_eq!(found.compared, compared);
    assert_eq!(&found.path[..found.path_len], path);
    assert!(found.path[found.path_len..].iter().all(|&unused| unused == 0));
    let data = match answer {
        // The data follow the 8 bytes of the key.
        Answer::Found { place } => {
            let start = place.node as usize * 512 + place.offset as usize + 8;
            Some(start..start + 12)
        }
        _ => None,
    };
    assert_eq!(found.data, data);
}

#[test]
fn lookups_and_their_paths() {
    // Of the two keys in each node the second is compared, and the first only if that is above.
    looks_up(10, found_at(4, 14), &[1, 2, 4], 2 + 2 + 2);
    looks_up(40, found_at(5, 34), &[1, 2, 5], 2 + 1 + 1);
    looks_up(50, found_at(6, 14), &[1, 3, 6], 1 + 2 + 2);
    looks_up(80, found_at(7, 34), &[1, 3, 7], 1 + 1 + 1);
    // No pointer of the root is low enough.
    looks_up(9, Answer::Absent { node: 1 }, &[1], 2);
    // An equal pointer key is not the record itself.
    looks_up(30, found_at(5, 14), &[1, 2, 5], 2 + 1 + 2);
    looks_up(70, found_at(7, 14), &[1, 3, 7], 1 + 1 + 2);
    // Between two leaves, the left one is the last node read.
    looks_up(24, Answer::Absent { node: 4 }, &[1, 2, 4], 2 + 2 + 1);
    looks_up(25, Answer::Absent { node: 4 }, &[1, 2, 4], 2 + 2 + 1);
    looks_up(29, Answer::Absent { node: 4 }, &[1, 2, 4], 2 + 2 + 1);
    looks_up(45, Answer::Absent { node: 5 }, &[1, 2, 5], 2 + 1 + 1);
    looks_up(49, Answer::Absent { node: 5 }, &[1, 2, 5], 2 + 1 + 1);
    looks_up(90, Answer::Absent { node: 7 }, &[1, 3, 7], 1 + 1 + 1);
}
