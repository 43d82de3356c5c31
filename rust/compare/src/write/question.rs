//! One row and its target, and what is shown when two writers differ on them.

use crate::seed::{seed, SEED_VARIABLE};
use crate::shown::show;
use std::fmt::Debug;

#[derive(Clone, Copy)]
pub struct WriteQuestion<'a> {
    /// The family of rows that it belongs to.
    pub family: &'static str,
    pub row: &'a [u8],
    pub target_len: usize,
}

/// A byte in which two targets differ: where it is, and what each has there.
#[derive(Debug, PartialEq, Eq)]
struct Difference {
    node: usize,
    offset: usize,
    bytes: (u8, u8),
}

impl WriteQuestion<'_> {
    /// Stops the run unless what the proved writer says or leaves is as expected.
    pub fn same<T: Debug + PartialEq + ?Sized>(&self, about: &str, got: &T, expected: &T) {
        if got != expected {
            let WriteQuestion { family, row, target_len } = self;
            let row = show(&format!("{family}_row"), row);
            let seed = seed();
            panic!(
                "{family}: a difference in a target of {target_len} bytes, {about}\n  \
                 proved: {got:?}\n  expected: {expected:?}\n  \
                 row: {row}\n  {SEED_VARIABLE}={seed}"
            );
        }
    }

    /// The same of every byte of a target; of a difference only the first byte is shown.
    pub fn same_bytes(&self, about: &str, got: &[u8], expected: &[u8]) {
        if got != expected {
            self.same(about, &first_difference(got, expected), &None);
        }
    }
}

fn first_difference(got: &[u8], expected: &[u8]) -> Option<Difference> {
    let at = got.iter().zip(expected).position(|(got, expected)| got != expected)?;
    Some(Difference { node: at / 512, offset: at % 512, bytes: (got[at], expected[at]) })
}

#[cfg(test)]
mod tests {
    use super::WriteQuestion;

    const QUESTION: WriteQuestion =
        WriteQuestion { family: "difference", row: &[7, 0], target_len: 1_024 };

    #[test]
    #[should_panic(expected = "in a target of 1024 bytes, answer\n  proved: 19\n  expected: 0")]
    fn a_difference_stops_the_run() {
        QUESTION.same("answer", &19, &0);
    }

    #[test]
    #[should_panic(expected = "node: 1, offset: 3, bytes: (9, 0)")]
    fn a_byte_stops_the_run() {
        let mut target = [0; 1_024];
        target[515] = 9;
        QUESTION.same_bytes("target", &target, &[0; 1_024]);
    }
}
