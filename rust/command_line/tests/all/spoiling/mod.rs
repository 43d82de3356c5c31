//! Some of the generator's spoilings, how the command line is asked about a tree, and what no output of
//! a spoiled one may have.

use crate::common::{run, Ran};
use images::spoil::{by_number, KeyFaults, Spoiling};
use images::{catalog, Built, Format, Key, Rng};
use std::ffi::OsString;
use std::path::Path;

/// A key, and how a user gives it.
pub trait Given: KeyFaults + Clone {
    fn words(&self) -> Vec<String>;

    /// Another key close by.
    fn beside(&self) -> Self;
}

impl Given for Key {
    fn words(&self) -> Vec<String> {
        vec![self.file.to_string(), fork_word(self.fork).to_string(), self.start.to_string()]
    }

    fn beside(&self) -> Key {
        Key { file: self.file ^ 1 << 30, ..*self }
    }
}

impl Given for catalog::Key {
    fn words(&self) -> Vec<String> {
        let hex: String = self.name.iter().map(|byte| format!("{byte:02x}")).collect();
        vec![self.parent.to_string(), "--name-hex".to_string(), hex]
    }

    fn beside(&self) -> catalog::Key {
        catalog::Key { parent: self.parent ^ 1 << 30, ..self.clone() }
    }
}

pub fn fork_word(fork: u8) -> &'static str {
    match fork {
        0x00 => "data",
        _ => "resource",
    }
}

/// The first, the last and some other key of a tree, and one beside each.
pub fn some_keys<K: Given>(rng: &mut Rng, built: &Built<K>) -> Vec<K> {
    let records = &built.records;
    let chosen = [0, rng.index(records.len()), records.len() - 1];
    let keys = chosen.map(|index| records[index].key.clone());
    keys.iter().flat_map(|key| [key.clone(), key.beside()]).collect()
}

/// A few spoilings of a tree of each fault number, none of which may have none.
pub fn some_spoilings<K: KeyFaults>(rng: &mut Rng, built: &Built<K>, most: usize) -> Vec<Spoiling> {
    let of_number = |number| {
        let mut known = by_number(built, number);
        assert!(!known.is_empty(), "the tree can have fault {number}");
        assert!(known.iter().all(|spoiling| spoiling.number == number));
        rng.shuffle(&mut known);
        known.truncate(most);
        known
    };
    (1..=10).flat_map(of_number).collect()
}

pub fn spoiled(image: &[u8], spoiling: &Spoiling) -> Vec<u8> {
    let mut image = image.to_vec();
    spoiling.apply(&mut image);
    image
}

/// A command about a file: in text, and as JSON.
pub fn run_both(command: &str, options: &[String], file: &Path, operands: &[String]) -> [Ran; 2] {
    [None, Some("--json")].map(|json| {
        let mut words: Vec<OsString> = vec![command.into()];
        words.extend(json.map(Into::into));
        words.extend(options.iter().map(Into::into));
        words.push(file.into());
        words.extend(operands.iter().map(Into::into));
        run(words)
    })
}

/// Of a tree that did not pass, nothing may be said to be there or not to be there.
pub fn assert_says_neither(ran: &Ran, status: i32, asked: &str) {
    assert_eq!((ran.status, ran.err.as_str()), (status, ""), "{asked}: {ran:?}");
    let said = ran.out.to_lowercase();
    assert!(!said.is_empty(), "{asked}: {ran:?}");
    assert!(!said.contains("found") && !said.contains("absent"), "{asked}: {ran:?}");
}

/// The number, the place and the bytes around it that the generator has for the fault.
pub fn assert_names_the_fault(both: &[Ran; 2], format: Format, image: &[u8], spoiling: &Spoiling) {
    let Spoiling { number, place, .. } = spoiling;
    let (node, offset) = (place.node, place.offset);
    let byte = node as usize * format.node_size + offset as usize;
    let place = format!("fault {number} at node {node}, offset {offset} (byte {byte}): ");
    assert!(both[0].out.contains(&place), "{place} {:?}", both[0]);
    let [start, end] = [byte.saturating_sub(8), byte + 8];
    // Sixteen bytes, unless the image has fewer, and the place among them.
    let start = start.min(image.len().saturating_sub(16));
    let end = end.max(16).min(image.len());
    let hex: String = image[start..end].iter().map(|byte| format!("{byte:02x}")).collect();
    let bytes = format!("\"byte\":{byte},\"bytes_from\":{start},\"bytes\":\"{hex}\"}}\n");
    let place = format!("\"node\":{node},\"offset\":{offset},{bytes}");
    assert!(both[1].out.contains(&format!("\"number\":{number},")), "{:?}", both[1]);
    assert!(both[1].out.ends_with(&place), "{place} {:?}", both[1]);
}
