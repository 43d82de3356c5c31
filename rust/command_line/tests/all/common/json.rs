//! Reads a line of JSON, whatever order its fields come in.

use std::collections::BTreeMap;

/// What answers are made of: they have no signs, fractions, truth values or nulls.
#[derive(Clone, Debug, PartialEq, Eq)]
pub enum Value {
    Number(u64),
    Text(String),
    List(Vec<Value>),
    Object(BTreeMap<String, Value>),
}

/// The object with these fields.
pub fn object<'a>(fields: impl IntoIterator<Item = (&'a str, Value)>) -> Value {
    Value::Object(fields.into_iter().map(|(name, value)| (name.to_string(), value)).collect())
}

pub fn number(number: impl Into<u64>) -> Value {
    Value::Number(number.into())
}

pub fn text(text: impl Into<String>) -> Value {
    Value::Text(text.into())
}

pub fn list(items: impl IntoIterator<Item = Value>) -> Value {
    Value::List(items.into_iter().collect())
}

impl Value {
    /// A field of an object.
    pub fn field(&self, name: &str) -> &Value {
        match self {
            Value::Object(fields) => fields.get(name).expect(name),
            other => panic!("{other:?} is no object"),
        }
    }
}

/// The values of all lines, one each.
pub fn read_lines(lines: &str) -> Vec<Value> {
    assert!(lines.is_empty() || lines.ends_with('\n'), "the last line is whole");
    lines.lines().map(read).collect()
}

/// The one value of a line.
pub fn read(line: &str) -> Value {
    let mut reader = Reader { rest: line };
    let value = reader.value();
    assert_eq!(reader.rest, "", "all of {line} is read");
    value
}

struct Reader<'a> {
    rest: &'a str,
}

impl Reader<'_> {
    fn value(&mut self) -> Value {
        match self.rest.chars().next() {
            Some('{') => self.object(),
            Some('[') => self.list(),
            Some('"') => Value::Text(self.text()),
            _ => self.number(),
        }
    }

    fn takes(&mut self, wanted: char) -> bool {
        let left = self.rest.strip_prefix(wanted);
        self.rest = left.unwrap_or(self.rest);
        left.is_some()
    }

    fn must_take(&mut self, wanted: char) {
        assert!(self.takes(wanted), "{wanted} before {}", self.rest);
    }

    fn next(&mut self) -> char {
        let c = self.rest.chars().next().expect("a text has an end");
        self.rest = &self.rest[c.len_utf8()..];
        c
    }

    fn number(&mut self) -> Value {
        let end = self.rest.find(|c: char| !c.is_ascii_digit()).unwrap_or(self.rest.len());
        let (digits, rest) = self.rest.split_at(end);
        assert!(digits == "0" || !digits.starts_with('0'), "{digits} has a zero too many");
        self.rest = rest;
        Value::Number(digits.parse().expect("a number"))
    }

    fn text(&mut self) -> String {
        self.must_take('"');
        let mut text = String::new();
        loop {
            match self.next() {
                '"' => return text,
                '\\' => text.push(self.escaped()),
                c => {
                    assert!(c >= ' ', "a bare control character");
                    text.push(c);
                }
            }
        }
    }

    fn escaped(&mut self) -> char {
        match self.next() {
            c @ ('"' | '\\' | '/') => c,
            'u' => {
                let (digits, rest) = self.rest.split_at(4);
                self.rest = rest;
                let code = u32::from_str_radix(digits, 16).expect("four digits");
                char::from_u32(code).expect("no half of a pair")
            }
            c => panic!("no escape of an answer: {c}"),
        }
    }

    fn list(&mut self) -> Value {
        self.must_take('[');
        let mut items = Vec::new();
        while !self.takes(']') {
            if !items.is_empty() {
                self.must_take(',');
            }
            items.push(self.value());
        }
        Value::List(items)
    }

    fn object(&mut self) -> Value {
        self.must_take('{');
        let mut fields = BTreeMap::new();
        while !self.takes('}') {
            if !fields.is_empty() {
                self.must_take(',');
            }
            let name = self.text();
            self.must_take(':');
            let value = self.value();
            assert!(fields.insert(name, value).is_none(), "a field comes twice");
        }
        Value::Object(fields)
    }
}
