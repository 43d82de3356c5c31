//! A fault, or a refusal of what was asked: its number, its words, its place, and the bytes around that.

use crate::form::Form;
use crate::json::Object;
use crate::name::hex;
use crate::place::At;
use hfs_btree::{Place, Verdict};
use std::fmt;
use std::ops::Range;

/// What is wrong, and where.
#[derive(Clone, Debug, PartialEq, Eq)]
pub struct Fault {
    number: u32,
    reason: String,
    /// Only a fault of the image itself has one.
    spot: Option<Spot>,
}

/// A place in an image, with up to 16 bytes around it.
#[derive(Clone, Debug, PartialEq, Eq)]
struct Spot {
    at: At,
    around: Range<usize>,
    bytes: Vec<u8>,
}

/// Faults of an image have numbers up to this; those above are said of the question.
const LAST_OF_IMAGE: u32 = 10;

const LENGTH: u32 = 1;

impl Fault {
    pub fn new(form: Form, image: &[u8], number: u32, place: Place) -> Fault {
        let spot = (number <= LAST_OF_IMAGE).then(|| Spot::new(form, image, place));
        let reason = match number {
            LENGTH => format!("{}, is not {}", length(form, image), lengths(form)),
            _ => words(number, form, place),
        };
        Fault { number, reason, spot }
    }

    /// A refusal that has no place in an image.
    pub fn asked(form: Form, number: u32) -> Fault {
        let reason = words(number, form, Place { node: 0, offset: 0 });
        Fault { number, reason, spot: None }
    }

    /// The fault that a verdict names, or none if it is sound.
    pub fn of(form: Form, image: &[u8], verdict: Verdict) -> Option<Fault> {
        let Verdict { number, place } = verdict;
        (number != 0).then(|| Fault::new(form, image, number, place))
    }

    pub fn object(&self) -> Object {
        let object = Object::new().with("number", self.number).with("reason", self.reason.as_str());
        match &self.spot {
            Some(spot) => object.and(spot.object()),
            None => object,
        }
    }
}

impl Spot {
    fn new(form: Form, image: &[u8], place: Place) -> Spot {
        let at = At::new(form, place);
        let around = around(at.byte, image.len());
        Spot { at, bytes: image[around.clone()].to_vec(), around }
    }

    fn object(&self) -> Object {
        let from = self.around.start as u64;
        self.at.object().with("bytes_from", from).with("bytes", hex(&self.bytes))
    }
}

/// Eight bytes before the place and eight from it on, or the nearest 16 that the image has.
fn around(byte: usize, len: usize) -> Range<usize> {
    let start = byte.saturating_sub(8).min(len.saturating_sub(16));
    start..len.min(start + 16)
}

impl fmt::Display for Fault {
    fn fmt(&self, f: &mut fmt::Formatter<'_>) -> fmt::Result {
        let Fault { number, reason, spot } = self;
        match spot {
            Some(spot) => write!(f, "fault {number} at {}: {reason}\n{spot}", spot.at),
            None => write!(f, "number {number}: {reason}"),
        }
    }
}

impl fmt::Display for Spot {
    fn fmt(&self, f: &mut fmt::Formatter<'_>) -> fmt::Result {
        if self.bytes.is_empty() {
            return write!(f, "bytes: none");
        }
        write!(f, "bytes {} to {}:", self.around.start, self.around.end - 1)?;
        for (at, byte) in self.around.clone().zip(&self.bytes) {
            match at == self.at.byte {
                true => write!(f, " [{byte:02x}]")?,
                false => write!(f, " {byte:02x}")?,
            }
        }
        Ok(())
    }
}

/// How long an image is; of a longer one than there may be only so many bytes are read.
fn length(form: Form, image: &[u8]) -> String {
    match image.len() as u64 > form.most_bytes() {
        true => format!("the length, more than {} bytes", form.most_bytes()),
        false => format!("the length, {} bytes", image.len()),
    }
}

fn lengths(form: Form) -> String {
    format!("1 to 65,536 whole nodes of {} bytes", form.node_size())
}

/// What a number says, in the words of the table.
fn words(number: u32, form: Form, place: Place) -> String {
    let told = match number {
        LENGTH => return format!("the length is not {}", lengths(form)),
        2 => {
            return format!(
                "the header node is not that of {form}: its links, kind, level, records or offsets, or one \
                 of depth, node size, key length and total nodes"
            )
        }
        3 => "the map chain has a wrong link, a node that is no map node, or too few bits",
        4 => "the child number is 0, out of range, in the map chain, or of a node already met",
        5 if form == Form::Catalog => {
            "the node's kind, level, reserved bytes, record count or offsets, a key or name length, or \
             a record's type is wrong, or a record reaches into the offset words"
        }
        5 => "the node's kind, level, reserved bytes, record count or offsets, or a key length or fork \
              byte is wrong",
        6 => "the key is not above the one before it, breaks the bounds along the path, or is not the \
              one that the pointer to its node has",
        7 if place.offset == 0 => "the forward link does not lead to the next node of the level",
        7 => "the back link does not lead to the node before it on the level",
        8 => "the header's leaf records, first leaf or last leaf do not agree with the tree",
        9 => "a map bit does not agree with whether its node is in use",
        10 => "the header's free nodes and the nodes in use do not make the total",
        11 => "the asked name has more than 31 bytes",
        19 => "the row is not of whole records of 20 bytes, has a wrong length or fork byte, or has keys \
               that do not strictly ascend",
        20 => "the row takes more nodes than that",
        // Sixteen and others of the table cannot come, as enough is lent and only what there is is asked.
        _ => "the table in include/hfs_btree.h says what it is",
    };
    told.to_string()
}

#[cfg(test)]
mod tests {
    use super::*;

    #[test]
    fn sixteen_bytes_or_all_there_are() {
        assert_eq!(around(0, 512), 0..16);
        assert_eq!(around(8, 512), 0..16);
        assert_eq!(around(100, 512), 92..108);
        assert_eq!(around(511, 512), 496..512);
        assert_eq!(around(0, 5), 0..5);
        assert_eq!(around(0, 0), 0..0);
    }
}
