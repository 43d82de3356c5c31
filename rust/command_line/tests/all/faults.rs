//! Places at the edges of an image: `check` names the fault and shows the bytes there are, and `find`
//! refuses with it.

use crate::common::json::{self, number, text, Value};
use crate::common::{names, options, run, sample, scratch, Ran};
use images::{build, Format, Plan, Tree};
use reference::{Place, Verdict};
use std::fs::{self, File};

/// A file that is not sound, in the format that it is taken for.
struct Faulty<'a> {
    format: Format,
    path: &'a str,
    image: &'a [u8],
    fault: Verdict,
}

impl Faulty<'_> {
    fn byte(&self) -> usize {
        let Place { node, offset } = self.fault.place;
        node as usize * self.format.node_size + offset as usize
    }

    fn words(&self, command: &str) -> Vec<String> {
        let mut words = vec![command.to_string(), self.path.to_string()];
        words.extend(options(self.format));
        words
    }

    fn asking(&self) -> Vec<String> {
        let mut words = self.words("find");
        let key: &[&str] = match self.format.tree {
            Tree::Extents => &["16", "data", "5"],
            Tree::Catalog => &["2", "Heights"],
        };
        words.extend(key.iter().map(|word| word.to_string()));
        words
    }

    fn assert_said(&self) {
        self.assert_answer(self.words("check"), 1, "not sound");
        self.assert_answer(self.asking(), 3, "refused");
    }

    fn assert_answer(&self, words: Vec<String>, expected: i32, answer: &str) {
        let Verdict { number: fault, place: Place { node, offset } } = self.fault;
        let byte = self.byte();
        let start =
            format!("{answer}: fault {fault} at node {node}, offset {offset} (byte {byte}): ");
        let Ran { status, out, err } = run(&words);
        let is_said = out.starts_with(&start);
        assert_eq!((status, &*err, is_said), (expected, "", true), "{words:?}: {out}");

        let Ran { status, out, err } = run([words, vec!["--json".to_string()]].concat());
        assert_eq!((status, &*err), (expected, ""));
        let object = json::read(out.trim_end());
        assert_eq!(object.field("answer"), &text(answer));
        let numbers = [("number", fault), ("node", node), ("offset", offset)];
        for (name, value) in numbers.into_iter().chain([("byte", byte as u32)]) {
            assert_eq!(object.field(name), &number(value), "{name}: {out}");
        }
        self.assert_bytes(&object);
    }

    /// Sixteen bytes of the image are shown, or all that it has, and the fault's is among them.
    fn assert_bytes(&self, object: &Value) {
        let Value::Number(from) = *object.field("bytes_from") else {
            panic!("bytes_from is a number");
        };
        let from = from as usize;
        let shown = &self.image[from..self.image.len().min(from + 16)];
        assert_eq!(shown.len(), self.image.len().min(16));
        assert!((from..from + 16).contains(&self.byte()));
        assert_eq!(object.field("bytes"), &text(names::hex(shown)));
    }
}

#[test]
fn the_sample_with_a_pointer_below_the_first_key() {
    let name = "two_leaves_pointer_below_first_key.img";
    let image = sample(name);
    let mut work = vec![0; reference::needed_work(image.len())];
    let fault = reference::check(&image, &mut work);
    assert_eq!(fault, Verdict { number: 6, place: Place { node: 3, offset: 14 } });
    let path = format!("samples/{name}");
    Faulty { format: Format::HFS, path: &path, image: &image, fault }.assert_said();
}

/// Lengths are fault 1 at the start: none, no whole node, and one node more than 65,536.
#[test]
fn wrong_lengths() {
    let file = scratch("wrong_lengths").join("zeros.img");
    let path = file.to_str().expect("the path is text");
    for length in [0, 1, 15, 511, 513, 33_554_432 + 512] {
        File::create(&file).and_then(|file| file.set_len(length)).expect("a file can be made");
        let image = vec![0; length as usize];
        let fault = Verdict { number: 1, place: Place { node: 0, offset: 0 } };
        for format in [Format::HFS, Format::CATALOG] {
            Faulty { format, path, image: &image, fault }.assert_said();
        }
    }
}

/// A bit too many at the end of the map, five bytes before the end of the image.
#[test]
fn a_fault_near_the_end_of_the_image() {
    let mut image = build(&Plan { map_nodes: 1, ..Plan::tidy(4_402, &[]) }).image;
    image[512 + 0x1FB] |= 1;
    let mut work = vec![0; reference::needed_work(image.len())];
    let fault = reference::check(&image, &mut work);
    assert_eq!(fault, Verdict { number: 9, place: Place { node: 1, offset: 0x1FB } });
    let file = scratch("a_fault_near_the_end_of_the_image").join("tree.img");
    fs::write(&file, &image).expect("a file can be written");
    let path = file.to_str().expect("the path is text");
    Faulty { format: Format::HFS, path, image: &image, fault }.assert_said();
}
