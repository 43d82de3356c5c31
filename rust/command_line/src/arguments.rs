//! A command line's words told apart: the command, its options, its operands.

use crate::output::Count;
use crate::trouble::Trouble;
use std::ffi::{OsStr, OsString};

/// What a user has given, before it is known whether the command takes it.
pub struct Arguments {
    pub command: String,
    options: Vec<Given>,
    operands: Vec<OsString>,
}

struct Given {
    name: &'static str,
    value: Option<OsString>,
}

/// The options there are, and which of them have a value.
const OPTIONS: [(&str, bool); 6] = [
    ("--json", false),
    ("--catalog", false),
    ("--plus", true),
    ("--name-hex", true),
    ("--nodes", true),
    ("--extents-only", false),
];

impl Arguments {
    pub fn read(given: Vec<OsString>) -> Result<Arguments, Trouble> {
        let mut read = Arguments { command: String::new(), options: vec![], operands: vec![] };
        let mut words = given.into_iter();
        while let Some(word) = words.next() {
            match word.to_str() {
                Some("--") => read.operands.extend(words.by_ref()),
                _ if is_option(&word) => read.take_option(&word, &mut words)?,
                _ => read.operands.push(word),
            }
        }
        if read.operands.is_empty() {
            return Err(Trouble::usage("no command is given"));
        }
        read.command = read.operands.remove(0).to_string_lossy().into_owned();
        Ok(read)
    }

    fn take_option(
        &mut self,
        word: &OsStr,
        words: &mut impl Iterator<Item = OsString>,
    ) -> Result<(), Trouble> {
        let shown = word.to_string_lossy();
        let (name, joined) = match shown.split_once('=') {
            Some((name, value)) => (name, Some(OsString::from(value))),
            None => (&*shown, None),
        };
        let known = OPTIONS.into_iter().find(|(known, _)| *known == name);
        let (name, value) = match (known, joined) {
            (None, _) => return Err(Trouble::usage(format!("there is no option '{name}'"))),
            (Some((name, false)), Some(_)) => {
                return Err(Trouble::usage(format!("{name} takes no value")))
            }
            (Some((name, false)), None) => (name, None),
            (Some((name, true)), joined) => {
                let value = joined.or_else(|| words.next());
                let missing = || Trouble::usage(format!("{name} takes a value"));
                (name, Some(value.ok_or_else(missing)?))
            }
        };
        if self.options.iter().any(|given| given.name == name) {
            return Err(Trouble::usage(format!("{name} is given twice")));
        }
        self.options.push(Given { name, value });
        Ok(())
    }

    /// Refuses an option that the command does not have.
    pub fn allow(&self, allowed: &[&str]) -> Result<(), Trouble> {
        let refused = |given: &&Given| given.name != "--json" && !allowed.contains(&given.name);
        match self.options.iter().find(refused) {
            Some(Given { name, .. }) => {
                Err(Trouble::usage(format!("{} takes no {name} here", self.command)))
            }
            None => Ok(()),
        }
    }

    pub fn has(&self, name: &str) -> bool {
        self.options.iter().any(|given| given.name == name)
    }

    pub fn value(&self, name: &str) -> Option<&OsStr> {
        self.options.iter().find(|given| given.name == name)?.value.as_deref()
    }

    /// The operands, which must be as many as have names.
    pub fn operands<const COUNT: usize>(
        self,
        names: [&str; COUNT],
    ) -> Result<[OsString; COUNT], Trouble> {
        let given = Count(self.operands.len() as u32, "operand");
        let reason = format!("{} takes {}, not {given}", self.command, names.join(" "));
        self.operands.try_into().map_err(|_| Trouble::usage(reason))
    }
}

/// A lone dash is an operand.
fn is_option(word: &OsStr) -> bool {
    let bytes = word.as_encoded_bytes();
    bytes.len() > 1 && bytes[0] == b'-'
}
