//! The calls for extents of HFS, proved and plain, on one image.

use crate::lent::work_for;
use crate::timing::report;
use images::{Format, Key, Record, Rng};
use std::hint::black_box;

const PLAIN: &str = "plain";

/// A sound image and its leaf records in their order.
#[derive(Clone, Copy)]
pub struct Extents<'a> {
    pub image: &'a [u8],
    pub records: &'a [Record],
}

impl Extents<'_> {
    pub fn time_check(self) {
        report(
            "check",
            PLAIN,
            work_for(self.image),
            |work| hfs_btree::check(self.unknown(), work),
            |work| plain::check(self.unknown(), work),
        );
    }

    /// Of the key in the middle.
    pub fn time_lookup(self) {
        let (file, fork, start) = asked(self.records[self.records.len() / 2].key);
        report(
            "lookup",
            PLAIN,
            work_for(self.image),
            |work| hfs_btree::lookup(self.unknown(), file, fork, start, work).answer,
            |work| plain::lookup(self.unknown(), file, fork, start, work).verdict,
        );
    }

    /// Of so many keys at once, picked at random.
    pub fn time_many(self, count: usize) {
        let keys = self.any_keys(count);
        let keys = || black_box(keys.as_slice());
        report(
            &format!("{count} keys"),
            PLAIN,
            (vec![0; count], work_for(self.image)),
            |(results, work)| hfs_btree::lookup_many(self.unknown(), keys(), results, work),
            |(results, work)| plain::lookup_many(self.unknown(), keys(), results, work),
        );
    }

    /// Of a key above all others, so that every node is looked at.
    pub fn time_salvage(self) {
        let last = self.records[self.records.len() - 1].key;
        let (file, fork, start) = asked(Format::HFS.key_of_rank(Format::HFS.rank_of(last) + 1));
        report(
            "salvage",
            PLAIN,
            (),
            |()| hfs_btree::salvage(self.unknown(), file, fork, start).answer,
            |()| plain::salvage(self.unknown(), file, fork, start).verdict,
        );
    }

    /// Packed keys of records, picked at random.
    pub fn any_keys(self, count: usize) -> Vec<u64> {
        let mut rng = Rng::new(7);
        let mut any_key = || asked(self.records[rng.index(self.records.len())].key);
        let packed = |(file, fork, start)| hfs_btree::packed(file, fork, start);
        (0..count).map(|_| packed(any_key())).collect()
    }

    /// The image, of which the compiler is to know nothing.
    pub fn unknown(&self) -> &[u8] {
        black_box(self.image)
    }
}

/// A key as the calls for HFS are asked for it.
fn asked(key: Key) -> (u32, u8, u16) {
    (key.file, key.fork, key.start as u16)
}
