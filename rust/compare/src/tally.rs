//! How much was compared.

use std::ops::AddAssign;

#[derive(Clone, Copy, Debug, Default)]
pub struct Tally {
    pub images: u64,
    /// Image and key, each asked of lookup and of salvage.
    pub pairs: u64,
    /// Pairs that the lookup found, and those that it called absent; the others were refused.
    pub found: u64,
    pub absent: u64,
    /// Pairs that salvage saw.
    pub seen: u64,
    /// Images that were asked under a form that is not listed.
    pub unlisted: u64,
    /// Images and pairs that were asked by the HFS calls too.
    pub by_hfs_calls: u64,
    /// Pairs of an HFS image and a start block above 65,535.
    pub high_starts: u64,
    /// Rows of keys, and the keys in those that were answered.
    pub rows: u64,
    pub row_keys: u64,
    /// Checks and lookups, of rows too, with fewer working bytes than needed, just enough, and more.
    pub too_few: u64,
    pub enough: u64,
    pub more: u64,
}

impl AddAssign for Tally {
    fn add_assign(&mut self, other: Tally) {
        self.images += other.images;
        self.pairs += other.pairs;
        self.found += other.found;
        self.absent += other.absent;
        self.seen += other.seen;
        self.unlisted += other.unlisted;
        self.by_hfs_calls += other.by_hfs_calls;
        self.high_starts += other.high_starts;
        self.rows += other.rows;
        self.row_keys += other.row_keys;
        self.too_few += other.too_few;
        self.enough += other.enough;
        self.more += other.more;
    }
}
