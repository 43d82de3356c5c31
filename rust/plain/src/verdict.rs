//! The numbers and places that are answered.

/// A number, and the node and the byte offset in it that belong to the number.
#[derive(Clone, Copy, Debug, PartialEq, Eq)]
pub struct Verdict {
    pub number: u32,
    pub node: u32,
    pub offset: u32,
}

impl Verdict {
    pub const SOUND: Verdict = Verdict::of(0);

    pub const LENGTH: Verdict = Verdict::of(1);
    pub const HEADER: Verdict = Verdict::of(2);
    pub const LEAF_TOTALS: Verdict = Verdict::of(8);
    pub const FREE_COUNT: Verdict = Verdict::of(10);
    pub const ASKED_KEY: Verdict = Verdict::of(11);
    pub const NOT_SEEN: Verdict = Verdict::of(14);
    pub const RESULT_ROW: Verdict = Verdict::of(15);
    pub const WORKING_BYTES: Verdict = Verdict::of(16);

    pub const fn map_chain(node: u32) -> Verdict {
        Verdict::at(3, node, 0)
    }

    /// The place is that of the child's number in its parent, or in the header.
    pub const fn child((node, offset): (u32, usize)) -> Verdict {
        Verdict::at(4, node, offset)
    }

    pub const fn node_form(node: u32) -> Verdict {
        Verdict::at(5, node, 0)
    }

    pub const fn key_order(node: u32, offset: usize) -> Verdict {
        Verdict::at(6, node, offset)
    }

    pub const fn links(node: u32, offset: usize) -> Verdict {
        Verdict::at(7, node, offset)
    }

    pub const fn map_bits(node: u32, offset: usize) -> Verdict {
        Verdict::at(9, node, offset)
    }

    pub const fn found(node: u32, offset: usize) -> Verdict {
        Verdict::at(0, node, offset)
    }

    pub const fn absent(node: u32) -> Verdict {
        Verdict::at(12, node, 0)
    }

    pub const fn seen(node: u32, offset: usize) -> Verdict {
        Verdict::at(13, node, offset)
    }

    /// A number that has no place of its own.
    const fn of(number: u32) -> Verdict {
        Verdict::at(number, 0, 0)
    }

    /// Offsets are below 512, so that none is cut.
    const fn at(number: u32, node: u32, offset: usize) -> Verdict {
        Verdict { number, node, offset: offset as u32 }
    }
}

/// Passes where `holds`, so that tests read as a list of rules with their verdicts.
pub fn require(holds: bool, verdict: Verdict) -> Result<(), Verdict> {
    if holds {
        Ok(())
    } else {
        Err(verdict)
    }
}
