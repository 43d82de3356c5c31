//! Spoilings: faults put into a sound image, most of them single, with what the table says of each.

mod bits;
mod catalog;
mod chain;
mod child;
mod extents;
mod family;
mod form;
mod harmless;
mod header;
mod keys;
mod length;
mod links;
mod order;
mod place;
mod totals;

use crate::build::Built;
use crate::format::Format;
pub use harmless::harmless;
pub use keys::KeyFaults;
pub use place::Place;

/// Changes to a sound image and the fault that the table answers them with.
#[derive(Clone, Debug)]
pub struct Spoiling {
    /// What is wrong, fit for a file name.
    pub what: String,
    /// The node whose bytes are changed, or one of them.
    pub edited: u32,
    /// The number and place that the table gives the fault.
    pub number: u32,
    pub place: Place,
    /// When the order of tests comes to it.
    pub moment: Moment,
    pub patches: Vec<Patch>,
}

/// A change to an image.
#[derive(Clone, Debug)]
pub enum Patch {
    Write { at: usize, bytes: Vec<u8> },
    Resize(usize),
}

/// A point in the order of tests; earlier points compare as less.
#[derive(Clone, Copy, Debug, PartialEq, Eq, PartialOrd, Ord)]
pub struct Moment {
    stage: Stage,
    /// The visit of the tree walk, the link of the chain, the level or the bit.
    turn: u32,
    step: Step,
}

#[derive(Clone, Copy, Debug, PartialEq, Eq, PartialOrd, Ord)]
enum Stage {
    Length,
    Header,
    Chain,
    Tree,
    LevelEnds,
    LeafTotals,
    Bits,
    FreeCount,
    Never,
}

#[derive(Clone, Copy, Debug, PartialEq, Eq, PartialOrd, Ord)]
enum Step {
    Whole,
    Link,
    LinkedNode,
    Child,
    Form,
    Order,
    BackLink,
    ForwardLinkBefore,
}

impl Moment {
    fn once(stage: Stage) -> Moment {
        Moment::at(stage, 0, Step::Whole)
    }

    fn at(stage: Stage, turn: u32, step: Step) -> Moment {
        Moment { stage, turn, step }
    }
}

impl Spoiling {
    pub fn name(&self) -> String {
        match self.number {
            // A wrong length is no node's fault.
            1 => self.what.clone(),
            _ => format!("{}_in_node_{}", self.what, self.edited),
        }
    }

    pub fn apply(&self, image: &mut Vec<u8>) {
        for patch in &self.patches {
            patch.apply(image);
        }
    }

    /// Whether the two change a byte in common, so that one would undo the other.
    pub fn overlaps(&self, other: &Spoiling) -> bool {
        let ours = self.patches.iter();
        ours.clone().any(|a| other.patches.iter().any(|b| a.overlaps(b)))
    }
}

impl Patch {
    pub fn byte(at: usize, value: u8) -> Patch {
        Patch::bytes(at, &[value])
    }

    pub fn word(at: usize, value: u16) -> Patch {
        Patch::bytes(at, &value.to_be_bytes())
    }

    pub fn long(at: usize, value: u32) -> Patch {
        Patch::bytes(at, &value.to_be_bytes())
    }

    pub fn bytes(at: usize, bytes: &[u8]) -> Patch {
        let bytes = bytes.to_vec();
        Patch::Write { at, bytes }
    }

    pub fn apply(&self, image: &mut Vec<u8>) {
        match self {
            Patch::Write { at, bytes } => image[*at..*at + bytes.len()].copy_from_slice(bytes),
            Patch::Resize(len) => resize(image, *len),
        }
    }

    /// The node whose bytes it changes first.
    fn node(&self, format: Format) -> u32 {
        match self {
            Patch::Write { at, .. } => Place::of_byte(format, *at).node,
            Patch::Resize(_) => 0,
        }
    }

    fn overlaps(&self, other: &Patch) -> bool {
        match (self, other) {
            (Patch::Write { at: a, bytes: x }, Patch::Write { at: b, bytes: y }) => {
                *a < b + y.len() && *b < a + x.len()
            }
            (Patch::Resize(_), Patch::Resize(_)) => true,
            _ => false,
        }
    }
}

/// Cuts an image off or lengthens it with zeros.
fn resize(image: &mut Vec<u8>, len: usize) {
    // Fresh zeros cost nothing until they are read, and a very long image is refused unread.
    let mut resized = vec![0; len];
    let kept = len.min(image.len());
    resized[..kept].copy_from_slice(&image[..kept]);
    *image = resized;
}

/// Every spoiling known for the image, in the order of the table.
pub fn spoilings<K: KeyFaults>(built: &Built<K>) -> Vec<Spoiling> {
    (1..=10).flat_map(|number| by_number(built, number)).collect()
}

/// The spoilings that the table answers with one number.
pub fn by_number<K: KeyFaults>(built: &Built<K>, number: u32) -> Vec<Spoiling> {
    match number {
        1 => length::spoilings(built),
        2 => header::spoilings(built),
        3 => chain::spoilings(built),
        4 => child::spoilings(built),
        5 => form::spoilings(built),
        6 => K::misplaced(built),
        7 => links::spoilings(built),
        8 => totals::leaf_spoilings(built),
        9 => bits::spoilings(built),
        10 => totals::free_spoilings(built),
        _ => Vec::new(),
    }
}
