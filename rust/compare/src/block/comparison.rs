//! Volumes, asked for blocks of their files.

use super::expected;
use super::question::{Asked, BlockQuestion};
use super::tally::BlockTally;
use crate::lent::Lender;
use crate::seed::seed;
use hfs_btree::block::{block, needed_work, Mapping};
use images::Rng;

/// Volumes of one family, and the count of what was asked of them.
pub struct BlockComparison {
    family: &'static str,
    lender: Lender,
    rng: Rng,
    tally: BlockTally,
}

impl BlockComparison {
    pub fn new(family: &'static str) -> BlockComparison {
        let (lender, rng) = (Lender::new(seed()), Rng::new(!seed()));
        BlockComparison { family, lender, rng, tally: BlockTally::default() }
    }

    pub fn tally(self) -> BlockTally {
        self.tally
    }

    /// Compares the answers for each block: once with as many working bytes for each image as it needs
    /// or more, and once with too few for either or both, where they need any.
    pub fn ask(&mut self, catalog: &[u8], extents: &[u8], asked: impl IntoIterator<Item = Asked>) {
        self.tally.volumes += 1;
        let needed = [catalog, extents].map(|image| needed_work(image.len()));
        for asked in asked {
            self.tally.blocks += 1;
            let mut question = BlockQuestion {
                family: self.family,
                catalog,
                extents,
                asked: &asked,
                lent: needed,
            };
            for work in [Some(self.enough(needed)), self.too_few(needed)].into_iter().flatten() {
                question.lent = work.each_ref().map(Vec::len);
                for (lent, needed) in question.lent.into_iter().zip(needed) {
                    self.tally.count_lent(lent, needed);
                }
                self.tally.count_answer(&same_answer(question, work));
            }
        }
    }

    fn enough(&mut self, needed: [usize; 2]) -> [Vec<u8>; 2] {
        needed.map(|needed| self.lender.enough(needed))
    }

    /// Too few for the catalog, for the extents or for both; none where the chosen image needs none.
    fn too_few(&mut self, needed: [usize; 2]) -> Option<[Vec<u8>; 2]> {
        let is_short = [[true, false], [false, true], [true, true]][self.rng.index(3)];
        let mut lend = |image: usize| match is_short[image] {
            true => self.lender.too_few(needed[image]),
            false => Some(self.lender.enough(needed[image])),
        };
        Some([lend(0)?, lend(1)?])
    }
}

/// Asks both readers with the same bytes lent, compares what they say and leave, and says it.
fn same_answer(question: BlockQuestion, work: [Vec<u8>; 2]) -> Mapping {
    let BlockQuestion { catalog, extents, asked, .. } = question;
    let mut left = work.clone();
    let got = proved(catalog, extents, asked, &mut left);
    let mut others_left = work;
    let said = expected::block(catalog, extents, asked, &mut others_left);
    question.same("answer", &got, &said);
    question.same("working bytes of the catalog", &left[0], &others_left[0]);
    question.same("working bytes of the extents", &left[1], &others_left[1]);
    got
}

fn proved(catalog: &[u8], extents: &[u8], asked: &Asked, work: &mut [Vec<u8>; 2]) -> Mapping {
    let Asked { key, fork, block: file_block } = asked;
    let [catalog_work, extents_work] = work;
    let (parent, name) = (key.parent, &key.name);
    block(catalog, catalog_work, extents, extents_work, parent, name, *fork, *file_block)
}

#[cfg(test)]
mod tests {
    use super::{Asked, BlockQuestion};
    use images::catalog::Key;

    #[test]
    #[should_panic(expected = "block: 5 }, [1, 0] working bytes, answer")]
    fn a_difference_stops_the_run() {
        let asked = Asked { key: Key::new(2, b"Heights"), fork: 0x00, block: 5 };
        let (catalog, extents) = (&[1, 2][..], &[3][..]);
        let family = "difference";
        let question = BlockQuestion { family, catalog, extents, asked: &asked, lent: [1, 0] };
        question.same("answer", &3, &4);
    }
}
