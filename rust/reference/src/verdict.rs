//! Which number and place a test answers with.

use crate::place::Place;

pub const LENGTH: u32 = 1;
pub const HEADER: u32 = 2;
pub const MAP_CHAIN: u32 = 3;
pub const CHILD: u32 = 4;
pub const NODE_FORM: u32 = 5;
pub const KEY_ORDER: u32 = 6;
pub const LINKS: u32 = 7;
pub const LEAF_TOTALS: u32 = 8;
pub const MAP_BITS: u32 = 9;
pub const FREE_COUNT: u32 = 10;
pub const ASKED_KEY: u32 = 11;
pub const ABSENT: u32 = 12;
pub const RESULT_ROW: u32 = 15;
pub const WORKING_BYTES: u32 = 16;
pub const NOT_COVERED: u32 = 17;
pub const VOLUME_BLOCK: u32 = 18;
pub const RECORD_ROW: u32 = 19;
pub const TARGET_NODES: u32 = 20;
pub const NOT_A_FILE: u32 = 24;
pub const FORMAT: u32 = 25;

/// What a check, a call for many keys or a writer answers: a number and the place that belongs to it.
#[derive(Clone, Copy, Debug, PartialEq, Eq)]
pub struct Verdict {
    pub number: u32,
    pub place: Place,
}

impl Verdict {
    pub const SOUND: Verdict = Verdict::new(0, Place::START);

    pub const fn new(number: u32, place: Place) -> Self {
        Verdict { number, place }
    }
}

/// Passes when `holds`, so that tests read as a list of rules with their verdicts.
pub fn require(holds: bool, number: u32, place: Place) -> Result<(), Verdict> {
    if holds {
        Ok(())
    } else {
        Err(Verdict::new(number, place))
    }
}
