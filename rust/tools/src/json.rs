//! JSON as it is written: objects keep their order, numbers are whole.

use std::fmt::{self, Display, Formatter, Write};

/// A value.
#[derive(Debug, PartialEq, Eq)]
pub enum Json {
    Number(i128),
    Text(String),
    List(Vec<Json>),
    Object(Vec<(&'static str, Json)>),
}

impl From<i128> for Json {
    fn from(number: i128) -> Json {
        Json::Number(number)
    }
}

impl From<u64> for Json {
    fn from(number: u64) -> Json {
        Json::Number(number.into())
    }
}

impl From<&str> for Json {
    fn from(text: &str) -> Json {
        Json::Text(text.into())
    }
}

/// A text in quotes. Signs below the blank have no other form than an escape.
fn quoted(text: &str, out: &mut Formatter) -> fmt::Result {
    out.write_char('"')?;
    for sign in text.chars() {
        match sign {
            '"' | '\\' => write!(out, "\\{sign}")?,
            '\n' => out.write_str("\\n")?,
            sign if sign < ' ' => write!(out, "\\u{:04x}", u32::from(sign))?,
            sign => out.write_char(sign)?,
        }
    }
    out.write_char('"')
}

/// A new line, so many levels in.
fn new_line(level: usize, out: &mut Formatter) -> fmt::Result {
    write!(out, "\n{:width$}", "", width = 2 * level)
}

impl Json {
    /// The value, from the second line on so many levels in.
    fn write(&self, level: usize, out: &mut Formatter) -> fmt::Result {
        match self {
            Json::Number(number) => write!(out, "{number}"),
            Json::Text(text) => quoted(text, out),
            Json::List(values) => {
                let values = values.iter().map(|value| (None, value));
                write_all(["[", "]"], values, level, out)
            }
            Json::Object(fields) => {
                let fields = fields.iter().map(|(name, value)| (Some(*name), value));
                write_all(["{", "}"], fields, level, out)
            }
        }
    }
}

/// Values in brackets, each in a line of its own, with their names if they have any.
fn write_all<'a>(
    [open, close]: [&str; 2],
    values: impl ExactSizeIterator<Item = (Option<&'a str>, &'a Json)>,
    level: usize,
    out: &mut Formatter,
) -> fmt::Result {
    let some = values.len() > 0;
    out.write_str(open)?;
    for (at, (name, value)) in values.enumerate() {
        out.write_str(if at > 0 { "," } else { "" })?;
        new_line(level + 1, out)?;
        if let Some(name) = name {
            quoted(name, out)?;
            out.write_str(": ")?;
        }
        value.write(level + 1, out)?;
    }
    if some {
        new_line(level, out)?;
    }
    out.write_str(close)
}

impl Display for Json {
    fn fmt(&self, out: &mut Formatter) -> fmt::Result {
        self.write(0, out)
    }
}

#[cfg(test)]
mod tests {
    use super::*;

    /// Catches an order that is lost, a comma too many or too few, and figures that are rounded.
    #[test]
    fn values_stand_one_below_the_other() {
        let json = Json::Object(vec![
            ("rows", 3u64.into()),
            ("none", Json::List(vec![])),
            ("nothing", Json::Object(vec![])),
            (
                "list",
                Json::List(vec![
                    i128::from(u64::MAX).into(),
                    Json::Object(vec![("net", (-5i128).into())]),
                ]),
            ),
            ("a", "b".into()),
        ]);
        let expected = "{\n  \"rows\": 3,\n  \"none\": [],\n  \"nothing\": {},\n  \"list\": [\n    \
                        18446744073709551615,\n    {\n      \"net\": -5\n    }\n  ],\n  \"a\": \"b\"\n}";
        assert_eq!(json.to_string(), expected);
    }

    /// Catches signs that a reader of JSON would stop at, and others that are escaped for nothing.
    #[test]
    fn texts_are_escaped() {
        let shown = |text: &str| Json::from(text).to_string();
        assert_eq!(shown(r#"a"b\c/"#), r#""a\"b\\c/""#);
        assert_eq!(shown("1\n2\r\t"), r#""1\n2\u000d\u0009""#);
        assert_eq!(
            shown("\0\u{1f} \u{7f}é€😀"),
            "\"\\u0000\\u001f \u{7f}é€😀\""
        );
    }
}
