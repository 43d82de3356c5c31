//! Whether the plain check and the proved one say the same, of an image and of spoiled copies.

use crate::spoiled::{changes, with_change, Change};
use crate::written::Written;
use images::Rng;
use std::collections::BTreeMap;
use std::ops::RangeInclusive;

/// Every fault that nodes can have is to come up.
const FAULTS: RangeInclusive<u32> = 2..=10;

/// How often each number was answered.
pub type Tally = BTreeMap<u32, usize>;

/// Compares the answers and the working bytes; the error says where they differ, or what is missing.
pub fn test(written: &Written) -> Result<Tally, String> {
    let mut rng = Rng::new(21);
    let mut tally = Tally::new();
    let mut count = |number| *tally.entry(number).or_default() += 1;
    let differ = |what| format!("The two checks differ on the image: {what}");
    count(compare(&mut rng, &written.image).map_err(differ)?);
    let mut image = written.image.clone();
    for change in changes(&written.image) {
        let answer = with_change(&mut image, &change, |image| compare(&mut rng, image));
        let Change { at, bytes } = &change;
        let differ = |what| format!("The two checks differ, byte {at} set to {bytes:02X?}: {what}");
        count(answer.map_err(differ)?);
    }
    match FAULTS.into_iter().find(|number| !tally.contains_key(number)) {
        None => Ok(tally),
        Some(number) => Err(format!("None of the changed copies was answered with {number}.")),
    }
}

/// The number that both answer with the same place and the same working bytes.
fn compare(rng: &mut Rng, image: &[u8]) -> Result<u32, String> {
    let mut work = vec![0; hfs_btree::needed_work(image.len()) + 3];
    rng.fill(&mut work);
    let mut plain_work = work.clone();
    let proved = hfs_btree::check(image, &mut work);
    let plain = plain::check(image, &mut plain_work);
    let same_place = (proved.place.node, proved.place.offset) == (plain.node, plain.offset);
    if proved.number != plain.number || !same_place {
        return Err(format!("proved {proved:?}, plain {plain:?}"));
    }
    if work != plain_work {
        return Err(format!("other working bytes after {}", plain.number));
    }
    Ok(plain.number)
}
