//! Rows, laid down in targets with random contents.

use super::held::assert_holds;
use super::question::WriteQuestion;
use super::tally::WriteTally;
use crate::expected::verdict;
use crate::seed::seed;
use hfs_btree::write_tree;
use images::rows::{least_nodes, Row};
use images::Rng;

pub const WRITTEN: u32 = 0;
pub const WRONG_LENGTH: u32 = 1;
pub const TOO_FEW_NODES: u32 = 20;

const NODE_SIZE: usize = 512;

/// Rows of one family, and the count of what became of them.
pub struct WriteComparison {
    family: &'static str,
    rng: Rng,
    tally: WriteTally,
}

impl WriteComparison {
    pub fn new(family: &'static str) -> WriteComparison {
        WriteComparison { family, rng: Rng::new(!seed()), tally: WriteTally::default() }
    }

    pub fn tally(self) -> WriteTally {
        self.tally
    }

    /// Compares the answer and every byte of the target afterwards. A refusal has to leave these as they
    /// were, and a written image has to be sound and to hold the row.
    pub fn write(&mut self, row: &[u8], target_len: usize) -> u32 {
        let question = WriteQuestion { family: self.family, row, target_len };
        let lent = self.noise(target_len);
        let mut left = lent.clone();
        let got = write_tree(row, &mut left);
        let mut others_left = lent.clone();
        let said = verdict(reference::write_tree(row, &mut others_left));
        question.same("answer", &got, &said);
        question.same_bytes("target", &left, &others_left);
        if got.number == WRITTEN {
            assert_holds(&question, &left, &mut self.rng, &mut self.tally);
        } else {
            question.same_bytes("refused target", &left, &lent);
        }
        self.tally.count_answer(got.number);
        got.number
    }

    /// The same of a row and a target of which the number is known.
    pub fn write_for(&mut self, number: u32, row: &[u8], target_len: usize) {
        let got = self.write(row, target_len);
        let question = WriteQuestion { family: self.family, row, target_len };
        question.same("number that is known", &got, &number);
    }

    /// The same of a lawful row, in so many whole nodes.
    pub fn write_in(&mut self, nodes: usize, row: &Row) {
        let fits = least_nodes(row.records.len()) <= nodes;
        let number = if fits { WRITTEN } else { TOO_FEW_NODES };
        self.write_for(number, &row.bytes, nodes * NODE_SIZE);
    }

    /// Random bytes, so many.
    fn noise(&mut self, len: usize) -> Vec<u8> {
        let mut bytes = vec![0; len];
        for chunk in bytes.chunks_mut(8) {
            chunk.copy_from_slice(&self.rng.next_u64().to_ne_bytes()[..chunk.len()]);
        }
        bytes
    }
}
