//! What programs read of the command: JSON by a small reader of its own, CSV by its titles.
#![allow(dead_code)]

mod reader;

use std::collections::BTreeMap;

pub use reader::json;

/// A JSON value.
#[derive(Clone, Debug, PartialEq, Eq)]
pub enum Value {
    Number(i128),
    Text(String),
    List(Vec<Value>),
    Object(Vec<(String, Value)>),
}

impl Value {
    /// The field of an object; there must be one.
    pub fn get(&self, name: &str) -> &Value {
        let Value::Object(fields) = self else {
            panic!("not an object: {self:?}");
        };
        let mut found = fields.iter().filter(|(field, _)| field == name);
        let (_, value) = found.next().unwrap_or_else(|| panic!("no {name}"));
        assert!(found.next().is_none(), "{name} twice");
        value
    }

    pub fn number(&self) -> i128 {
        match self {
            Value::Number(number) => *number,
            other => panic!("not a number: {other:?}"),
        }
    }

    pub fn text(&self) -> &str {
        match self {
            Value::Text(text) => text,
            other => panic!("not a text: {other:?}"),
        }
    }

    pub fn list(&self) -> &[Value] {
        match self {
            Value::List(values) => values,
            other => panic!("not a list: {other:?}"),
        }
    }

    /// The names of the fields of an object, in order.
    pub fn names(&self) -> Vec<&str> {
        match self {
            Value::Object(fields) => fields.iter().map(|(name, _)| &name[..]).collect(),
            other => panic!("not an object: {other:?}"),
        }
    }
}

/// The value of JSON text, which must be right.
pub fn read(text: &str) -> Value {
    json(text).unwrap_or_else(|why| panic!("{why}\n{text}"))
}

/// Figures of an object by their names, times the thousandths that one of them is in the text.
pub fn times<const N: usize>(of: &Value, names: [&str; N], by: i128) -> [i128; N] {
    names.map(|name| by * of.get(name).number())
}

/// The lines of CSV text by their titles, without the empty cells.
pub fn csv(text: &str) -> Vec<BTreeMap<String, String>> {
    let mut lines = text.lines();
    let titles: Vec<&str> = lines.next().unwrap().split(',').collect();
    let line = |line: &str| {
        let cells: Vec<&str> = line.split(',').collect();
        assert_eq!(cells.len(), titles.len(), "{line}");
        let named = titles
            .iter()
            .zip(cells)
            .filter(|(_, cell)| !cell.is_empty());
        named
            .map(|(title, cell)| (title.to_string(), cell.to_string()))
            .collect()
    };
    lines.map(line).collect()
}
