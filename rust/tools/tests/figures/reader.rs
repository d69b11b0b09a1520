//! A small reader of JSON, which shares nothing with the command's writer.

use super::Value;

/// Reads JSON text as RFC 8259 has it, of which numbers must be whole; nothing may follow.
pub fn json(text: &str) -> Result<Value, String> {
    let mut reader = Reader {
        signs: text.chars().collect(),
        at: 0,
    };
    let value = reader.value()?;
    match reader.peek() {
        None => Ok(value),
        Some(sign) => Err(format!("{sign:?} behind the value")),
    }
}

struct Reader {
    signs: Vec<char>,
    at: usize,
}

impl Reader {
    /// The next sign that is no blank.
    fn peek(&mut self) -> Option<char> {
        while self
            .signs
            .get(self.at)
            .is_some_and(|sign| " \t\r\n".contains(*sign))
        {
            self.at += 1;
        }
        self.signs.get(self.at).copied()
    }

    fn next(&mut self) -> Result<char, String> {
        self.at += 1;
        let sign = self.signs.get(self.at - 1);
        sign.copied().ok_or_else(|| "the text ends".into())
    }

    fn wants(&mut self, wanted: char) -> Result<(), String> {
        self.peek();
        match self.next()? {
            sign if sign == wanted => Ok(()),
            sign => Err(format!(
                "{sign:?} at {} where {wanted:?} is wanted",
                self.at
            )),
        }
    }

    fn value(&mut self) -> Result<Value, String> {
        match self.peek() {
            Some('{') => {
                let fields = self.several(['{', '}'], |reader| {
                    reader.peek();
                    let name = reader.text()?;
                    reader.wants(':')?;
                    Ok((name, reader.value()?))
                })?;
                Ok(Value::Object(fields))
            }
            Some('[') => Ok(Value::List(self.several(['[', ']'], Reader::value)?)),
            Some('"') => Ok(Value::Text(self.text()?)),
            _ => self.number(),
        }
    }

    /// What stands in brackets, with commas between.
    fn several<T>(
        &mut self,
        [open, close]: [char; 2],
        one: impl Fn(&mut Reader) -> Result<T, String>,
    ) -> Result<Vec<T>, String> {
        self.wants(open)?;
        let mut values = Vec::new();
        while self.peek() != Some(close) {
            if !values.is_empty() {
                self.wants(',')?;
            }
            values.push(one(self)?);
        }
        self.wants(close)?;
        Ok(values)
    }

    fn text(&mut self) -> Result<String, String> {
        self.wants('"')?;
        let mut text = String::new();
        loop {
            match self.next()? {
                '"' => return Ok(text),
                '\\' => text.push(self.escaped()?),
                sign if sign < ' ' => return Err(format!("{sign:?} in a text")),
                sign => text.push(sign),
            }
        }
    }

    fn escaped(&mut self) -> Result<char, String> {
        match self.next()? {
            sign @ ('"' | '\\' | '/') => Ok(sign),
            'n' => Ok('\n'),
            't' => Ok('\t'),
            'r' => Ok('\r'),
            'u' => {
                let digits: Result<String, String> = (0..4).map(|_| self.next()).collect();
                let code = u32::from_str_radix(&digits?, 16).map_err(|error| error.to_string())?;
                char::from_u32(code).ok_or_else(|| "half a sign".into())
            }
            sign => Err(format!("no escape: {sign:?}")),
        }
    }

    fn number(&mut self) -> Result<Value, String> {
        let from = self.at;
        while self
            .signs
            .get(self.at)
            .is_some_and(|sign| *sign == '-' || sign.is_ascii_digit())
        {
            self.at += 1;
        }
        let digits: String = self.signs[from..self.at].iter().collect();
        let plain = digits.trim_start_matches('-');
        let leading = plain.len() > 1 && plain.starts_with('0');
        match digits.parse() {
            Ok(number) if !leading => Ok(Value::Number(number)),
            _ => Err(format!("no whole number at {from}: '{digits}'")),
        }
    }
}
