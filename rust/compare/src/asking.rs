//! One question to several readers, with working bytes lent to each.

use crate::lent::Lender;
use crate::question::Question;
use crate::tally::Tally;
use hfs_btree::editions;
use std::fmt::Debug;

/// Asks a reader with the bytes lent to it.
pub type Ask<'a, T> = &'a dyn Fn(&mut [u8]) -> T;

/// A reader by its name, which is to say what the proved one does.
pub type Other<'a, T> = (&'static str, Ask<'a, T>);

pub const REFERENCE: &str = "reference";

/// What lends to the readers, and the count of what was asked.
pub struct Asking {
    pub tally: Tally,
    pub lender: Lender,
}

impl Asking {
    pub fn new(seed: u64) -> Asking {
        Asking { tally: Tally::default(), lender: Lender::new(seed) }
    }

    /// Asks once with fewer working bytes than the image needs, where it needs any, and once with
    /// enough or more, and compares the answers and every byte afterwards. Says what the second got.
    pub fn with_lent<T: Debug + PartialEq, A: Debug + Copy>(
        &mut self,
        question: Question<A>,
        proved: Ask<T>,
        others: &[Other<T>],
    ) -> T {
        let (node_size, len) = (question.tree.node_size(), question.image.len());
        let needed = editions::needed_work(node_size, len);
        let expected = reference::editions::needed_work(node_size, len);
        question.about("needed working bytes").same(&needed, REFERENCE, &expected);
        if let Some(work) = self.lender.too_few(needed) {
            self.tally.too_few += 1;
            same_work(question, work, proved, others);
        }
        let work = self.lender.enough(needed);
        if work.len() == needed {
            self.tally.enough += 1;
        } else {
            self.tally.more += 1;
        }
        same_work(question, work, proved, others)
    }
}

/// Asks each reader with the same bytes lent, and says what the proved one got.
fn same_work<T: Debug + PartialEq, A: Debug + Copy>(
    question: Question<A>,
    work: Vec<u8>,
    proved: Ask<T>,
    others: &[Other<T>],
) -> T {
    let mut left = work.clone();
    let got = proved(&mut left);
    for (name, other) in others {
        let mut others_left = work.clone();
        question.same(&got, name, &other(&mut others_left));
        question.about((question.asked, "working bytes")).same(&left, name, &others_left);
    }
    got
}
