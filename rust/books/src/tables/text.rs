//! A table of weights and per cents as text. Seven lines, in this order, have a name and whole
//! numbers: `weights`, the basis points of bands 0 to 14; then `vertical`, `zone-1`, `zone-2`,
//! `zone-3`, `adjacent` and `zones-1-3`, a per cent each. A line that begins with # is a comment.
//!
//! Nothing here decides whether a table is accepted.

use super::{Table, BANDS};
use crate::csv::{shown, Faults, Fields, LineError, Wrong};
use crate::number::{column, field, Unit};

/// The name of the line of weights.
const WEIGHTS: &str = "weights";

/// The names of the per cents, in the order of their bytes.
pub const PER_CENTS: [&str; 6] = [
    "vertical",
    "zone-1",
    "zone-2",
    "zone-3",
    "adjacent",
    "zones-1-3",
];

/// A line of a table: its number, and the words after its name.
type Named<'a> = (usize, Vec<&'a str>);

/// The words after a line's name, which must be this one.
fn values<'a>(name: &str, line: &'a str) -> Result<Vec<&'a str>, String> {
    let mut words = line.split_whitespace();
    match words.next() {
        Some(first) if first == name => Ok(words.collect()),
        Some(first) => Err(format!(
            "the line of {name} is wanted here, not {}",
            shown(first)
        )),
        None => Err(format!("the line of {name} is missing")),
    }
}

/// The lines of a text by their names, in order. Comments and blank lines are passed over.
fn named(text: &str) -> Result<[Named<'_>; 7], LineError> {
    let end = (text.lines().count() + 1, "");
    let lines = (1..).zip(text.lines().map(str::trim));
    let mut lines = lines.filter(|(_, line)| !line.is_empty() && !line.starts_with('#'));
    let mut found: [Named; 7] = Default::default();
    for (found, name) in found.iter_mut().zip([WEIGHTS].iter().chain(&PER_CENTS)) {
        let (line, written) = lines.next().unwrap_or(end);
        let words = values(name, written).map_err(|what| LineError::new(line, what))?;
        *found = (line, words);
    }
    match lines.next() {
        Some((line, more)) => {
            let more = shown(more);
            let what = format!("nothing is wanted after zones-1-3, and here is {more}");
            Err(LineError::new(line, what))
        }
        None => Ok(found),
    }
}

/// The weights of a line.
fn read_weights(words: &[&str]) -> Result<[u16; BANDS], Vec<Wrong>> {
    let mut fields = Fields::default();
    let count = words.len();
    if count != BANDS {
        let wrong = format!("{count} weights where {BANDS} are wanted");
        return Err(vec![wrong.into()]);
    }
    let weight = |(band, word): (usize, &&str)| {
        let name = format!("the weight of band {band}");
        fields.number(field(&column(&name, Unit::BasisPoints, "0 to 2,000"), word))
    };
    let weights: Vec<u16> = words.iter().enumerate().map(weight).collect();
    fields.made(weights.try_into().ok())
}

/// The per cent of a line.
fn read_per_cent(name: &str, words: &[&str]) -> Result<u8, Vec<Wrong>> {
    let read = match words {
        [word] => field(&column(name, Unit::PerCents, "0 to 100"), word),
        words => Err(format!("{name} has {} numbers, not one", words.len()).into()),
    };
    read.map_err(|wrong| vec![wrong])
}

/// Reads text, whose lines end with LF, CRLF or CR. Of one whose lines stand in order every wrong number is
/// told.
pub fn parse(text: &str) -> Result<Table, Faults> {
    let text = text.strip_prefix('\u{feff}').unwrap_or(text);
    let text = text.replace("\r\n", "\n").replace('\r', "\n");
    let [(line, weights), per_cents @ ..] = named(&text)?;
    let mut faults = Faults::default();
    let weights = faults.of_line(line, read_weights(&weights));
    let mut read = [0; 6];
    for ((read, name), (line, words)) in read.iter_mut().zip(PER_CENTS).zip(per_cents) {
        *read = faults
            .of_line(line, read_per_cent(name, &words))
            .unwrap_or_default();
    }
    let [vertical, zone_1, zone_2, zone_3, adjacent, zones_1_3] = read;
    faults.or(Table {
        weights: weights.unwrap_or_default(),
        vertical,
        zones: [zone_1, zone_2, zone_3],
        adjacent,
        zones_1_3,
    })
}

/// The per cents of a table, in the order of their names.
pub fn per_cents(table: &Table) -> [u8; 6] {
    let [zone_1, zone_2, zone_3] = table.zones;
    [
        table.vertical,
        zone_1,
        zone_2,
        zone_3,
        table.adjacent,
        table.zones_1_3,
    ]
}

/// A table as text.
pub fn write(table: &Table) -> String {
    let weights = table.weights.map(|weight| weight.to_string());
    let mut text = format!("{WEIGHTS} {}\n", weights.join(" "));
    for (name, per_cent) in PER_CENTS.iter().zip(per_cents(table)) {
        text.push_str(&format!("{name} {per_cent}\n"));
    }
    text
}

#[cfg(test)]
mod tests {
    use super::*;

    /// Bands 0 to 14 weigh 300, 301 and so on; the per cents are 1 to 6.
    const TEXT: &str = "weights 300 301 302 303 304 305 306 307 308 309 310 311 312 313 314
vertical 1
zone-1 2
zone-2 3
zone-3 4
adjacent 5
zones-1-3 6
";

    /// Catches numbers that are exchanged.
    #[test]
    fn each_number_has_its_own_place() {
        let table = parse(TEXT).unwrap();
        let expected = Table {
            weights: std::array::from_fn(|band| 300 + band as u16),
            vertical: 1,
            zones: [2, 3, 4],
            adjacent: 5,
            zones_1_3: 6,
        };
        assert_eq!(table, expected);
        assert_eq!(per_cents(&table), [1, 2, 3, 4, 5, 6]);
        assert_eq!(write(&table), TEXT);
    }

    /// Whatever the bytes are, also where no library would accept them.
    #[test]
    fn any_table_comes_back_as_it_was() {
        for fill in 0..=255 {
            let bytes: [u8; 36] = std::array::from_fn(|at| fill ^ (7 * at) as u8);
            let table = Table::decode(&bytes).unwrap();
            assert_eq!(parse(&write(&table)), Ok(table));
        }
    }

    #[test]
    fn comments_blank_lines_and_spaces_are_passed_over() {
        let loose = TEXT.replace("\nzone-1 2", "\r\n\r\n  # zone-1 9\r\n\tzone-1\t 2 ");
        let loose = format!("\u{feff}# a comment\n{}", loose.trim_end());
        assert_eq!(parse(&loose), parse(TEXT));
        assert_eq!(parse(&TEXT.replace('\n', "\r")), parse(TEXT));
    }

    /// What is told of the text after a replacement, and of which line.
    fn told(from: &str, to: &str) -> String {
        assert!(TEXT.contains(from));
        parse(&TEXT.replacen(from, to, 1)).unwrap_err().to_string()
    }

    #[test]
    fn errors_name_the_line_and_the_number() {
        let cases = [
            (
                "weights",
                "weight",
                "line 1: the line of weights is wanted here, not 'weight'",
            ),
            (" 314", "", "line 1: 14 weights where 15 are wanted"),
            ("314", "314 315", "line 1: 16 weights where 15 are wanted"),
            (
                "302",
                "3,02",
                "line 1: the weight of band 2 is '3,02': decimals are not taken; \
                 write it in basis points: 3,02% is 302",
            ),
            (
                "302",
                "-3",
                "line 1: the weight of band 2 is '-3': a number below zero is not taken",
            ),
            (
                "314",
                "65536",
                "line 1: the weight of band 14 is '65536', and may be 0 to 2,000",
            ),
            (
                "zone-2 3\n",
                "",
                "line 4: the line of zone-2 is wanted here, not 'zone-3'",
            ),
            (
                "zone-2 3",
                "# none",
                "line 5: the line of zone-2 is wanted here, not 'zone-3'",
            ),
            (
                "zone-2 3",
                "zone-1 3",
                "line 4: the line of zone-2 is wanted here, not 'zone-1'",
            ),
            (
                "adjacent 5",
                "adjacent",
                "line 6: adjacent has 0 numbers, not one",
            ),
            (
                "adjacent 5",
                "adjacent 5 5",
                "line 6: adjacent has 2 numbers, not one",
            ),
            (
                "adjacent 5",
                "adjacent 5%",
                "line 6: adjacent is '5%': units and other signs are not taken; \
                 write it in whole per cents: 5% is 5",
            ),
            (
                "adjacent 5",
                "adjacent 256",
                "line 6: adjacent is '256', and may be 0 to 100",
            ),
            (
                "zones-1-3 6\n",
                "",
                "line 7: the line of zones-1-3 is missing",
            ),
            (
                "-3 6\n",
                "-3 6\n\nzone-1 2\n",
                "line 9: nothing is wanted after zones-1-3, and here is 'zone-1 2'",
            ),
        ];
        for (from, to, expected) in cases {
            assert_eq!(told(from, to), expected);
        }
        // Every wrong number is told.
        let text = TEXT
            .replace("302 303", "3.02 3%")
            .replace("zone-1 2", "zone-1 x");
        let lines = parse(&text).unwrap_err().to_string();
        let lines: Vec<&str> = lines.lines().map(|line| &line[..30]).collect();
        let band = "line 1: the weight of band ";
        let told = [
            format!("{band}2 i"),
            format!("{band}3 i"),
            "line 3: zone-1 is 'x', not a wh".into(),
        ];
        assert_eq!(lines, told.each_ref().map(|line| &line[..30]));
        let nothing = "line 1: the line of weights is missing";
        assert_eq!(parse("").unwrap_err().to_string(), nothing);
    }
}
