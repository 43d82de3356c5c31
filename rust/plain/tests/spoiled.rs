//! Images with one fault or two, and with changes that are none.

mod agreement;

use agreement::Agreement;
use images::spoil::{harmless, spoilings, Spoiling};
use images::{build, samples, Built, Plan, Rng};

/// Each change alone and with another one; keys of the image, and one that it does not have.
fn spoil(agreement: &mut Agreement, rng: &mut Rng, built: &Built, changes: &[Spoiling]) {
    for change in changes {
        let mut image = built.image.clone();
        change.apply(&mut image);
        let keys = [0; 2].map(|_| any_key(rng, built));
        agreement.ask(&image, &keys);
        let other = &changes[rng.index(changes.len())];
        // A changed length would leave the other fault no room.
        if change.number != 1 && other.number != 1 {
            other.apply(&mut image);
            agreement.ask(&image, &keys[..1]);
        }
    }
}

fn any_key(rng: &mut Rng, built: &Built) -> images::Key {
    match built.records.len() {
        0 => images::Key::from_rank(rng.next_u64() >> 16),
        count => built.records[rng.index(count)].key,
    }
}

fn assert_all_faults(agreement: &Agreement) {
    let answered: Vec<u32> = agreement.verdicts.keys().copied().collect();
    assert_eq!(answered, [1, 2, 3, 4, 5, 6, 7, 8, 9, 10, 16]);
}

#[test]
fn every_fault_of_random_trees() {
    let (mut agreement, mut rng) = (Agreement::new(5), Rng::new(5));
    for depth in 0..=8 {
        for seed in 300..303 {
            let built = build(&Plan::random(seed, depth, 5));
            spoil(&mut agreement, &mut rng, &built, &spoilings(&built));
        }
    }
    assert_all_faults(&agreement);
}

#[test]
fn every_fault_of_samples() {
    let (mut agreement, mut rng) = (Agreement::new(6), Rng::new(6));
    for built in [samples::falling_map_nodes(), samples::two_level()] {
        spoil(&mut agreement, &mut rng, &built, &spoilings(&built));
    }
    assert_all_faults(&agreement);
}

#[test]
fn some_faults_of_large_trees() {
    let (mut agreement, mut rng) = (Agreement::new(7), Rng::new(7));
    for built in [samples::largest_of(6_000), samples::needed_map_nodes()] {
        let mut known = spoilings(&built);
        rng.shuffle(&mut known);
        known.truncate(60);
        spoil(&mut agreement, &mut rng, &built, &known);
    }
    assert!(agreement.verdicts.len() > 3, "{:?}", agreement.verdicts);
}

#[test]
fn harmless_changes() {
    let mut agreement = Agreement::new(8);
    for built in [samples::two_level(), samples::three_level(), samples::falling_map_nodes()] {
        for change in harmless(&built) {
            let mut image = built.image.clone();
            change.apply(&mut image);
            agreement.ask(&image, &[built.records[0].key]);
        }
    }
    let answered: Vec<u32> = agreement.verdicts.keys().copied().collect();
    // 16 is of the call that is lent too few bytes.
    assert_eq!(answered, [0, 16]);
}
