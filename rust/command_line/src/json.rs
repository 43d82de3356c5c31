//! JSON objects, as far as answers need them.

use std::fmt::{self, Write};

/// An object whose fields keep their order.
#[derive(Clone, Debug, Default, PartialEq, Eq)]
pub struct Object(Vec<(&'static str, Value)>);

/// The value of a field.
#[derive(Clone, Debug, PartialEq, Eq)]
pub enum Value {
    Number(u64),
    Text(String),
    List(Vec<Value>),
    Object(Object),
}

impl Object {
    pub fn new() -> Object {
        Object::default()
    }

    /// The object with one field more.
    pub fn with(mut self, name: &'static str, value: impl Into<Value>) -> Object {
        self.0.push((name, value.into()));
        self
    }

    /// The object with the fields of another behind its own.
    pub fn and(mut self, other: Object) -> Object {
        self.0.extend(other.0);
        self
    }
}

impl From<u64> for Value {
    fn from(number: u64) -> Value {
        Value::Number(number)
    }
}

impl From<u32> for Value {
    fn from(number: u32) -> Value {
        Value::Number(number.into())
    }
}

impl From<&str> for Value {
    fn from(text: &str) -> Value {
        Value::Text(text.to_string())
    }
}

impl From<String> for Value {
    fn from(text: String) -> Value {
        Value::Text(text)
    }
}

impl From<Object> for Value {
    fn from(object: Object) -> Value {
        Value::Object(object)
    }
}

impl<Item: Into<Value>> From<Vec<Item>> for Value {
    fn from(items: Vec<Item>) -> Value {
        Value::List(items.into_iter().map(Into::into).collect())
    }
}

impl fmt::Display for Object {
    fn fmt(&self, f: &mut fmt::Formatter<'_>) -> fmt::Result {
        let members = |f: &mut fmt::Formatter<'_>, (name, value): &(&str, Value)| {
            text(f, name)?;
            write!(f, ":{value}")
        };
        joined(f, ['{', '}'], &self.0, members)
    }
}

impl fmt::Display for Value {
    fn fmt(&self, f: &mut fmt::Formatter<'_>) -> fmt::Result {
        match self {
            Value::Number(number) => write!(f, "{number}"),
            Value::Text(value) => text(f, value),
            Value::List(items) => joined(f, ['[', ']'], items, |f, item| write!(f, "{item}")),
            Value::Object(object) => write!(f, "{object}"),
        }
    }
}

fn joined<Item>(
    f: &mut fmt::Formatter<'_>,
    [open, close]: [char; 2],
    items: &[Item],
    show: impl Fn(&mut fmt::Formatter<'_>, &Item) -> fmt::Result,
) -> fmt::Result {
    f.write_char(open)?;
    for (i, item) in items.iter().enumerate() {
        if i > 0 {
            f.write_char(',')?;
        }
        show(f, item)?;
    }
    f.write_char(close)
}

fn text(f: &mut fmt::Formatter<'_>, value: &str) -> fmt::Result {
    f.write_char('"')?;
    for c in value.chars() {
        match c {
            '"' | '\\' => write!(f, "\\{c}")?,
            c if c.is_control() => write!(f, "\\u{:04x}", u32::from(c))?,
            c => f.write_char(c)?,
        }
    }
    f.write_char('"')
}

#[cfg(test)]
mod tests {
    use super::*;

    #[test]
    fn every_kind_of_value() {
        let inner = Object::new().with("a", 1u32);
        let object = Object::new()
            .with("text", "a \"b\" \\ \n é")
            .with("list", vec![vec![1u32, 2], vec![]])
            .with("object", inner)
            .with("number", u64::MAX);
        let expected = r#"{"text":"a \"b\" \\ \u000a é","list":[[1,2],[]],"object":{"a":1},"number":18446744073709551615}"#;
        assert_eq!(object.to_string(), expected);
        assert_eq!(Object::new().to_string(), "{}");
    }
}
