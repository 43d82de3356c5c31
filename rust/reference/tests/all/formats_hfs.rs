//! HFS asked for by its edition: what the HFS calls say, and start blocks that HFS has not.

use crate::formats::{lookup, salvage};
use images::bench::{l1, two_leaves};
use images::by_hand::three_levels_by_hand;
use images::spoil::spoilings;
use images::{build, samples, Built, Format, Key, Plan, Rng};
use reference::{editions, Answer, Lookup, SalvageAnswer};

/// Every answer and every lent byte is the same.
fn assert_same(image: &[u8], asked: &[Key]) {
    let needed = reference::needed_work(image.len());
    assert_eq!(editions::needed_work(512, image.len()), needed);
    for len in [needed.saturating_sub(1), needed, needed + 2] {
        let (mut by_edition, mut by_hfs) = (vec![0x5A; len], vec![0x5A; len]);
        let verdict = editions::check(0, 512, image, &mut by_edition);
        assert_eq!(verdict, reference::check(image, &mut by_hfs));
        assert_eq!(by_edition, by_hfs);
        for &Key { file, fork, start } in asked {
            let got = editions::lookup(0, 512, image, file, fork, start, &mut by_edition);
            let start = start as u16;
            assert_eq!(got, reference::lookup(image, file, fork, start, &mut by_hfs));
            assert_eq!(by_edition, by_hfs);
        }
    }
    for &Key { file, fork, start } in asked {
        let got = editions::salvage(0, 512, image, file, fork, start);
        assert_eq!(got, reference::salvage(image, file, fork, start as u16));
    }
}

/// Some keys of the tree, a neighbour of each and a wrong fork.
fn some_keys(built: &Built) -> Vec<Key> {
    let step = built.records.len() / 7 + 1;
    let keys = built.records.iter().step_by(step).map(|record| record.key);
    let beside = keys.clone().map(|key| Key::from_rank(key.rank() + 1));
    let wrong_fork = Key::new(16, 0x01, 5);
    keys.chain(beside).chain([wrong_fork, Key::new(u32::MAX, 0xFF, 65_535)]).collect()
}

fn small_trees() -> Vec<Built> {
    let random = (0..=8).map(|depth| build(&Plan::random(740, depth, 4)));
    random.chain([samples::two_level(), samples::falling_map_nodes()]).collect()
}

#[test]
fn sound_and_spoiled_trees() {
    for built in small_trees() {
        let asked = some_keys(&built);
        assert_same(&built.image, &asked);
        for spoiling in spoilings(&built) {
            let mut image = built.image.clone();
            spoiling.apply(&mut image);
            assert_same(&image, &asked[..2.min(asked.len())]);
        }
    }
    assert_same(&samples::needed_map_nodes().image, &[Key::new(16, 0x00, 5)]);
}

#[test]
fn any_bytes() {
    let mut rng = Rng::new(741);
    let asked = [Key::new(16, 0x00, 5), Key::new(20, 0x00, 0)];
    for _ in 0..2_000 {
        let mut image = three_levels_by_hand();
        for _ in 0..rng.index(5) {
            let at = rng.index(image.len());
            image[at] = rng.next_u64() as u8;
        }
        image.truncate(image.len() - rng.index(2) * rng.index(image.len()));
        assert_same(&image, &asked);
    }
}

/// Absent after so many compared keys, with the path up to its last node.
fn absent(compared: u32, path: &[u32]) -> Lookup {
    let mut nodes = [0; 8];
    nodes[..path.len()].copy_from_slice(path);
    let answer = Answer::Absent { node: path[path.len() - 1] };
    Lookup { answer, compared, path: nodes, path_len: path.len(), data: None }
}

#[test]
fn start_blocks_above_65535() {
    let ask = |image: &[u8], file, fork, start| {
        let asked = Key::new(file, fork, start);
        assert_eq!(salvage(Format::HFS, image, asked).answer, SalvageAnswer::NotSeen);
        lookup(Format::HFS, image, asked)
    };
    // The low 16 bits of 65,541 are those of L1's key.
    for start in [65_536, 65_541, 131_077, u32::MAX] {
        assert_eq!(ask(&l1(), 16, 0x00, start), absent(1, &[1]));
        // Leaf 2 has (16, 00, 5), leaf 3 has (16, FF, 0) and (17, 00, 0).
        let image = two_leaves();
        assert_eq!(ask(&image, 15, 0xFF, start), absent(2, &[1]));
        assert_eq!(ask(&image, 16, 0x00, start), absent(2 + 1, &[1, 2]));
        assert_eq!(ask(&image, 16, 0xFF, start), absent(1 + 2, &[1, 3]));
        assert_eq!(ask(&image, 17, 0x00, start), absent(1 + 1, &[1, 3]));
        assert_eq!(ask(&image, u32::MAX, 0xFF, start), absent(1 + 1, &[1, 3]));
    }
}

#[test]
fn a_start_block_one_above_the_highest() {
    let mut image = l1();
    for (file, fork) in [(16, 0x00), (16, 0xFF), (u32::MAX, 0xFF)] {
        let highest = Key::new(file, fork, 65_535);
        image[526..534].copy_from_slice(&highest.bytes());
        assert!(matches!(lookup(Format::HFS, &image, highest).answer, Answer::Found { .. }));
        for start in [65_536, 131_071, u32::MAX] {
            let asked = Key { start, ..highest };
            assert_eq!(lookup(Format::HFS, &image, asked), absent(1, &[1]));
            assert_eq!(salvage(Format::HFS, &image, asked).answer, SalvageAnswer::NotSeen);
        }
    }
}

#[test]
fn a_high_start_block_is_tested_for_everything_else_first() {
    let asked = Key::new(16, 0x01, 65_541);
    let number = |image: &[u8], asked| match lookup(Format::HFS, image, asked).answer {
        Answer::Refused { number, .. } => number,
        Answer::Found { .. } | Answer::Absent { .. } => 0,
    };
    assert_eq!(number(&l1(), asked), 11);
    assert_eq!(number(&[0; 511], Key { fork: 0x00, ..asked }), 1);
    assert_eq!(number(&[0; 512], Key { fork: 0x00, ..asked }), 2);
    assert_eq!(salvage(Format::HFS, &l1(), asked), crate::formats::salvage_refused(11));
    let too_long = vec![0; 33_554_433];
    let got = salvage(Format::HFS, &too_long, Key { fork: 0x00, ..asked });
    assert_eq!(got, crate::formats::salvage_refused(1));
}
