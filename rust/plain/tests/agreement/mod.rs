//! Asks the plain reader and the reference the same questions, and stops at the first difference.

mod answers;

use answers::{lookup_of, salvage_of, verdict_of};
use images::{Key, Rng};
use std::collections::BTreeMap;

/// Lends both readers the same random working bytes and results, and counts what is answered.
pub struct Agreement {
    rng: Rng,
    /// How often the check answered each number.
    pub verdicts: BTreeMap<u32, usize>,
    /// How often a lookup did.
    pub lookups: BTreeMap<u32, usize>,
    pub salvages: BTreeMap<u32, usize>,
}

impl Agreement {
    pub fn new(seed: u64) -> Agreement {
        let none = BTreeMap::new();
        let (verdicts, lookups, salvages) = (none.clone(), none.clone(), none);
        Agreement { rng: Rng::new(seed), verdicts, lookups, salvages }
    }

    /// The check, with too few working bytes, just enough and more; and every call for each key.
    pub fn ask(&mut self, image: &[u8], keys: &[Key]) {
        let needed = reference::needed_work(image.len());
        assert_eq!(plain::needed_work(image.len()), needed);
        let more = needed + 1 + self.rng.index(40);
        for lent in [needed.saturating_sub(1), needed, more] {
            self.ask_check(image, lent);
        }
        for &key in keys {
            self.ask_key(image, key, needed);
        }
        self.ask_many(image, keys, needed);
    }

    fn ask_check(&mut self, image: &[u8], lent: usize) {
        let mut work = self.any_bytes(lent);
        let mut their_work = work.clone();
        let verdict = plain::check(image, &mut work);
        assert_eq!(verdict, verdict_of(reference::check(image, &mut their_work)));
        assert_eq!(work, their_work, "working bytes after {verdict:?}");
        *self.verdicts.entry(verdict.number).or_default() += 1;
    }

    fn ask_key(&mut self, image: &[u8], key: Key, needed: usize) {
        let Key { file, fork, .. } = key;
        let start = key.start as u16;
        let mut work = self.any_bytes(needed);
        let mut their_work = work.clone();
        let lookup = plain::lookup(image, file, fork, start, &mut work);
        let theirs = reference::lookup(image, file, fork, start, &mut their_work);
        assert_eq!(lookup, lookup_of(image, theirs), "{key:?}");
        assert_eq!(work, their_work, "working bytes after the lookup of {key:?}");
        let salvage = plain::salvage(image, file, fork, start);
        let theirs = salvage_of(image, reference::salvage(image, file, fork, start));
        assert_eq!(salvage, theirs, "{key:?}");
        *self.lookups.entry(lookup.verdict.number).or_default() += 1;
        *self.salvages.entry(salvage.verdict.number).or_default() += 1;
    }

    /// All keys at once with numbers that are none, and with fewer results, as many, or more.
    fn ask_many(&mut self, image: &[u8], keys: &[Key], needed: usize) {
        let mut numbers: Vec<u64> = keys.iter().map(|&key| packed(key)).collect();
        let key = numbers.first().copied().unwrap_or(0);
        numbers.extend([1 << 56, key | 1 << 60, key ^ 1 << 16, self.rng.next_u64()]);
        self.rng.shuffle(&mut numbers);
        for lent in [numbers.len() - 1, numbers.len(), numbers.len() + 3] {
            let mut results: Vec<u32> = (0..lent).map(|_| self.rng.next_u64() as u32).collect();
            let mut their_results = results.clone();
            let mut work = self.any_bytes(needed);
            let mut their_work = work.clone();
            let verdict = plain::lookup_many(image, &numbers, &mut results, &mut work);
            let theirs =
                reference::lookup_many(image, &numbers, &mut their_results, &mut their_work);
            assert_eq!(verdict, verdict_of(theirs));
            assert_eq!(results, their_results, "results of {numbers:?}");
            assert_eq!(work, their_work, "working bytes after many keys");
        }
    }

    fn any_bytes(&mut self, len: usize) -> Vec<u8> {
        let mut bytes = vec![0; len];
        self.rng.fill(&mut bytes);
        bytes
    }
}

fn packed(key: Key) -> u64 {
    u64::from(key.file) << 24 | u64::from(key.fork) << 16 | u64::from(key.start)
}
