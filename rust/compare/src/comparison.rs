//! The same questions about extents trees to both readers.

use crate::asking::{Asking, Other, REFERENCE};
use crate::expected;
use crate::form::Form;
use crate::hfs_calls;
use crate::keys;
use crate::lent::Row;
use crate::question::{Question, Tree};
use crate::seed::seed;
use crate::tally::Tally;
use hfs_btree::editions::{self, Answer, SalvageAnswer};
use images::{Format, Key};

const HFS_CALL: &str = "proved, by the call for HFS";

const UNLISTED_FORM: u32 = 25;

/// Images of one family and one format, and the count of what was asked of them.
pub struct Comparison {
    family: &'static str,
    form: Form,
    asking: Asking,
}

impl Comparison {
    pub fn new(family: &'static str, format: Format) -> Comparison {
        Comparison { family, form: format.into(), asking: Asking::new(seed()) }
    }

    pub fn tally(&self) -> Tally {
        self.asking.tally
    }

    /// Compares the verdicts on an image and the answers for each key; in HFS also those for all keys
    /// at once, and what the calls for HFS say.
    pub fn ask(&mut self, image: &[u8], asked: impl IntoIterator<Item = Key>) {
        self.ask_as(self.form, image, asked);
    }

    /// The same, with a form that the image need not have.
    pub fn ask_as(&mut self, form: Form, image: &[u8], asked: impl IntoIterator<Item = Key>) {
        self.asking.tally.images += 1;
        self.check(form, image);
        let mut row = Vec::new();
        for key in asked {
            self.asking.tally.pairs += 1;
            self.lookup(form, image, key);
            self.salvage(form, image, key);
            row.extend(hfs_calls::can_ask(key).then(|| keys::packed(key)));
        }
        if form == Form::HFS {
            self.ask_at_once(image, row);
        }
    }

    fn check(&mut self, form: Form, image: &[u8]) {
        let Form { edition, node_size } = form;
        let others: [Other<_>; 2] = [
            (REFERENCE, &|work| expected::check(form, image, work)),
            (HFS_CALL, &|work| hfs_btree::check(image, work)),
        ];
        let others = &others[..self.others(form == Form::HFS)];
        let proved = |work: &mut [u8]| editions::check(edition, node_size, image, work);
        let question = self.question(form, image, "check");
        if self.asking.with_lent(question, &proved, others).number == UNLISTED_FORM {
            self.asking.tally.unlisted += 1;
        }
    }

    fn lookup(&mut self, form: Form, image: &[u8], key: Key) {
        let Form { edition, node_size } = form;
        let Key { file, fork, start } = key;
        let others: [Other<_>; 2] = [
            (REFERENCE, &|work| expected::lookup(form, image, key, work)),
            (HFS_CALL, &|work| hfs_calls::lookup(image, key, work)),
        ];
        let others = &others[..self.others(form == Form::HFS && hfs_calls::can_ask(key))];
        let proved =
            |work: &mut [u8]| editions::lookup(edition, node_size, image, file, fork, start, work);
        let question = self.question(form, image, key);
        match self.asking.with_lent(question, &proved, others).answer {
            Answer::Found { .. } => self.asking.tally.found += 1,
            Answer::Absent { .. } => self.asking.tally.absent += 1,
            Answer::Refused { .. } => {}
        }
    }

    fn salvage(&mut self, form: Form, image: &[u8], key: Key) {
        let Form { edition, node_size } = form;
        let Key { file, fork, start } = key;
        let question = self.question(form, image, (key, "salvage"));
        let got = editions::salvage(edition, node_size, image, file, fork, start);
        question.same(&got, REFERENCE, &expected::salvage(form, image, key));
        if form == Form::HFS {
            if hfs_calls::can_ask(key) {
                question.same(&got, HFS_CALL, &hfs_calls::salvage(image, key));
            } else {
                self.asking.tally.high_starts += 1;
            }
        }
        if let SalvageAnswer::Seen { .. } = got.answer {
            self.asking.tally.seen += 1;
        }
    }

    /// The keys with some numbers that are none among them, in any order, with fewer results than
    /// keys, as many, or more.
    pub fn ask_at_once(&mut self, image: &[u8], keys: Vec<u64>) {
        let row = self.asking.lender.row(keys);
        let Row { keys, results } = &row;
        let proved = |work: &mut [u8]| {
            let mut left = results.clone();
            (hfs_btree::lookup_many(image, keys, &mut left, work), left)
        };
        let expected = |work: &mut [u8]| expected::lookup_many(image, keys, results.clone(), work);
        let asked = (keys.len(), results.len(), "keys and results");
        let question = self.question(Form::HFS, image, asked);
        let got = self.asking.with_lent(question, &proved, &[(REFERENCE, &expected)]);
        self.asking.tally.rows += 1;
        if got.0.number == 0 {
            self.asking.tally.row_keys += keys.len() as u64;
        }
    }

    fn question<'a, A>(&self, form: Form, image: &'a [u8], asked: A) -> Question<'a, A> {
        Question { family: self.family, tree: Tree::Extents(form), image, asked }
    }

    /// How many others are asked, the reference first and the call for HFS last.
    fn others(&mut self, by_hfs_call: bool) -> usize {
        self.asking.tally.by_hfs_calls += u64::from(by_hfs_call);
        1 + usize::from(by_hfs_call)
    }
}
