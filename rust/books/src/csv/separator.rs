//! The separator of a text: a comma, a semicolon or a tab.

use super::faults::{shown, LineError};
use super::records::{Record, Records};

/// The separators that a text may have.
const SEPARATORS: [char; 3] = [',', ';', '\t'];

/// How the first line begins in which a spreadsheet is told the separator.
const TOLD: &str = "sep=";

/// The separator that the first line tells, and the text from the end of that line on.
fn told(text: &str) -> Result<Option<(char, &str)>, LineError> {
    let length = text.find(['\r', '\n']).unwrap_or(text.len());
    let (first, rest) = text.split_at(length);
    let (begin, sign) = first.split_at_checked(TOLD.len()).unwrap_or_default();
    if !begin.eq_ignore_ascii_case(TOLD) {
        return Ok(None);
    }
    let known = SEPARATORS
        .into_iter()
        .find(|known| sign == known.to_string());
    let wrong = || {
        let sign = shown(sign);
        let what = format!("sep is {sign}; it may be a comma, a semicolon or a tab");
        LineError::new(1, what)
    };
    known.map(|known| Some((known, rest))).ok_or_else(wrong)
}

/// The separator of a text, and its records. Where the first line does not tell it, it is the one under which
/// most columns are found in the header, which is the first record that is none of faults.
pub fn separated<'a>(
    text: &'a str,
    found_in: impl Fn(&Record) -> usize,
) -> Result<(char, Records<'a>), LineError> {
    if let Some((separator, rest)) = told(text)? {
        return Ok((separator, Records::new(rest, 1, separator)));
    }
    let found_under = |separator: &char| {
        let mut records = Records::new(text, 1, *separator);
        let header = records.find_map(Result::ok);
        header.map_or(0, |header| found_in(&header))
    };
    // Of equals the last is taken, which is to be the comma.
    let best = SEPARATORS.into_iter().rev().max_by_key(found_under);
    let separator = best.unwrap_or(',');
    Ok((separator, Records::new(text, 1, separator)))
}

#[cfg(test)]
mod tests {
    use super::*;

    /// The separator of a text whose header should have a and b, or what is told.
    fn of(text: &str) -> Result<char, String> {
        let names = |header: &Record| header.fields.iter().filter(|name| name.len() == 1).count();
        let found = separated(text, names).map_err(|fault| fault.to_string());
        found.map(|(separator, _)| separator)
    }

    /// Catches a separator that is taken from a comment, or from the most frequent sign.
    #[test]
    fn the_header_tells_the_separator() {
        for separator in SEPARATORS {
            let sign = separator.to_string();
            let header = format!("# x,y;z\n\n{sign}{sign}\n\"a\"{sign} b\n,,,,;;;;\n");
            assert_eq!(of(&header), Ok(separator));
        }
        // A row above it that begins as a comment does hides none.
        assert_eq!(of("#x;1;2;3;4\na;b"), Ok(';'));
        assert_eq!(
            [of(""), of("xyz"), of("\"a;b")],
            [Ok(','), Ok(','), Ok(',')]
        );
    }

    /// Catches a told separator that is not heeded, and one that is none.
    #[test]
    fn a_first_line_may_tell_it() {
        for text in ["sep=;\na,b", "SEP=;\r\na,b", "sep=;"] {
            assert_eq!(of(text), Ok(';'), "{text}");
        }
        assert_eq!(of("sep=\t\na,b"), Ok('\t'));
        // The lines are counted on.
        let (_, mut records) = separated("sep=,\r\na\n", |_| 0).unwrap();
        assert_eq!(records.next().unwrap().unwrap().line, 2);
        for sign in ["|", "", ";;", " ;"] {
            let why = format!("line 1: sep is '{sign}'; it may be a comma, a semicolon or a tab");
            assert_eq!(of(&format!("sep={sign}\na;b")), Err(why));
        }
    }
}
