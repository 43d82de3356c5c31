//! Catalogs, asked as such and as extents trees.

use super::expected;
use crate::asking::{Asking, Other, REFERENCE};
use crate::comparison::Comparison;
use crate::question::{Question, Tree};
use crate::seed::seed;
use crate::tally::Tally;
use hfs_btree::catalog::{self, Answer, SalvageAnswer};
use images::catalog::Key;
use images::{Format, Key as ExtentsKey};

/// Images of one family, and the count of what was asked of them.
pub struct CatalogComparison {
    family: &'static str,
    asking: Asking,
    extents: Comparison,
}

impl CatalogComparison {
    pub fn new(family: &'static str) -> CatalogComparison {
        let extents = Comparison::new(family, Format::HFS);
        CatalogComparison { family, asking: Asking::new(seed()), extents }
    }

    /// What was asked, as a catalog and as extents.
    pub fn tally(&self) -> Tally {
        let mut sum = self.asking.tally;
        sum += self.extents.tally();
        sum
    }

    /// Compares the verdicts on an image and the answers for each key.
    pub fn ask(&mut self, image: &[u8], asked: impl IntoIterator<Item = Key>) {
        self.asking.tally.images += 1;
        self.check(image);
        for key in asked {
            self.asking.tally.pairs += 1;
            self.lookup(image, &key);
            self.salvage(image, &key);
        }
    }

    /// The same of an image taken for an extents tree.
    pub fn ask_as_extents(
        &mut self,
        format: Format,
        image: &[u8],
        asked: impl IntoIterator<Item = ExtentsKey>,
    ) {
        self.extents.ask_as(format.into(), image, asked);
    }

    fn check(&mut self, image: &[u8]) {
        let others: [Other<_>; 1] = [(REFERENCE, &|work| expected::check(image, work))];
        let proved = |work: &mut [u8]| catalog::check(image, work);
        let question = self.question(image, "check");
        self.asking.with_lent(question, &proved, &others);
    }

    fn lookup(&mut self, image: &[u8], key: &Key) {
        let others: [Other<_>; 1] = [(REFERENCE, &|work| expected::lookup(image, key, work))];
        let proved = |work: &mut [u8]| catalog::lookup(image, key.parent, &key.name, work);
        let question = self.question(image, key);
        let got = self.asking.with_lent(question, &proved, &others);
        let read = expected::entry(&got.data);
        question.about((key, "entry")).same(&got.data.entry(), REFERENCE, &read);
        match got.answer {
            Answer::Found { .. } => self.asking.tally.found += 1,
            Answer::Absent { .. } => self.asking.tally.absent += 1,
            Answer::Refused { .. } => {}
        }
    }

    fn salvage(&mut self, image: &[u8], key: &Key) {
        let question = self.question(image, (key, "salvage"));
        let got = catalog::salvage(image, key.parent, &key.name);
        question.same(&got, REFERENCE, &expected::salvage(image, key));
        if let SalvageAnswer::Seen { .. } = got.answer {
            self.asking.tally.seen += 1;
        }
    }

    fn question<'a, A>(&self, image: &'a [u8], asked: A) -> Question<'a, A> {
        Question { family: self.family, tree: Tree::Catalog, image, asked }
    }
}
