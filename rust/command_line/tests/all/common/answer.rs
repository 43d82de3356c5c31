//! What `find` and `salvage` are to say where the reference answers so.

use super::json::{list, number, object, text, Value};
use super::{run, Ran};
use reference::{Answer, Lookup, Place, Salvage, SalvageAnswer};
use std::ops::Range;

/// The data of a record as they are to be shown.
#[derive(Default)]
pub struct Shown {
    pub lines: Vec<String>,
    pub fields: Vec<(String, Value)>,
}

/// An exit status with the answer in words, and the fields of the answer for scripts.
#[derive(Debug)]
pub struct Expected {
    pub status: i32,
    pub text: String,
    pub object: Value,
}

impl Expected {
    fn new(status: i32, lines: Vec<String>, fields: Vec<(String, Value)>) -> Expected {
        let text = lines.iter().map(|line| format!("{line}\n")).collect();
        let fields = fields.iter().map(|(name, value)| (&**name, value.clone()));
        Expected { status, text, object: object(fields) }
    }

    /// Runs the program both ways.
    pub fn assert_said(&self, words: &[String]) {
        let Ran { status, out, err } = run(words);
        let said = (status, &*out, &*err);
        assert_eq!(said, (self.status, &*self.text, ""), "{words:?}");
        let Ran { status, out, err } = run([&["--json".to_string()], words].concat());
        let line = out.strip_suffix('\n').expect("a whole line");
        assert_eq!((status, &*err), (self.status, ""), "{words:?}");
        assert_eq!(super::json::read(line), self.object, "{words:?}");
    }
}

/// A place as the text has it.
pub fn place_text(place: Place, node_size: u32) -> String {
    let Place { node, offset } = place;
    format!("node {node}, offset {offset} (byte {})", node * node_size + offset)
}

/// A place as JSON has it.
pub fn place_fields(place: Place, node_size: u32) -> Vec<(String, Value)> {
    let Place { node, offset } = place;
    named([("node", node), ("offset", offset), ("byte", node * node_size + offset)])
}

fn named<const COUNT: usize>(numbers: [(&str, u32); COUNT]) -> Vec<(String, Value)> {
    numbers.map(|(name, value)| (name.to_string(), number(value))).into()
}

fn answered(answer: &str, answer_number: u32) -> Vec<(String, Value)> {
    [vec![("answer".to_string(), text(answer))], named([("number", answer_number)])].concat()
}

/// What is to be said of a lookup in a sound image.
pub fn of_lookup(
    lookup: &Lookup,
    node_size: u32,
    show: impl Fn(Range<usize>) -> Shown,
) -> Expected {
    let (status, words, answer, place) = match lookup.answer {
        Answer::Found { place } => (0, "found at", answered("found", 0), place),
        Answer::Absent { node } => {
            let words = "absent: the search ended at";
            (1, words, answered("absent", 12), Place { node, offset: 0 })
        }
        Answer::Refused { .. } => panic!("the image is sound and the key lawful"),
    };
    let shown = lookup.data.clone().map(show).unwrap_or_default();
    let path = &lookup.path[..lookup.path_len];
    let mut lines = vec![
        format!("{words} {}", place_text(place, node_size)),
        format!("path: {}", path_text(path)),
        format!("keys compared: {}", lookup.compared),
    ];
    lines.extend(shown.lines);
    let mut fields = [answer, place_fields(place, node_size)].concat();
    fields.push(("path".to_string(), list(path.iter().map(|node| number(*node)))));
    fields.extend(named([("compared", lookup.compared)]));
    fields.extend(shown.fields);
    Expected::new(status, lines, fields)
}

fn path_text(path: &[u32]) -> String {
    match path {
        [] => "none".to_string(),
        _ => path.iter().map(u32::to_string).collect::<Vec<_>>().join(" "),
    }
}

/// What is to be said of a salvage.
pub fn of_salvage(
    salvage: &Salvage,
    node_size: u32,
    show: impl Fn(Range<usize>) -> Shown,
) -> Expected {
    let note = |words: &str| ("note".to_string(), text(words));
    match salvage.answer {
        SalvageAnswer::Seen { place } => {
            let shown = show(salvage.data.clone().expect("what is seen has data"));
            let mut lines = vec![format!("seen at {}", place_text(place, node_size))];
            lines.extend(shown.lines);
            lines.push("seen proves nothing: a freed node may hold an old record".to_string());
            let mut fields = [answered("seen", 13), place_fields(place, node_size)].concat();
            fields.extend(shown.fields);
            fields.push(note("seen proves nothing"));
            Expected::new(0, lines, fields)
        }
        SalvageAnswer::NotSeen => {
            let proof = "seen proves nothing, nor does not seen";
            let lines = vec![
                "not seen: no leaf that is whole by itself has the key".to_string(),
                format!("{proof}: the leaf that had it may be damaged"),
            ];
            let mut fields = answered("not seen", 14);
            fields.push(note(proof));
            Expected::new(1, lines, fields)
        }
        SalvageAnswer::Refused { .. } => panic!("the length and the key are lawful"),
    }
}
