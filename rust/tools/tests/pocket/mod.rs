//! A pocket calculator for the texts in samples/expected.
#![allow(dead_code)]

use std::fs;

/// The stored texts of some names, with these.
pub fn stored(wanted: impl Fn(&str) -> bool) -> Vec<(String, String)> {
    let folder = format!("{}/../../samples/expected", env!("CARGO_MANIFEST_DIR"));
    let files = fs::read_dir(folder).unwrap().map(|file| file.unwrap());
    let named = files.map(|file| (file.file_name().into_string().unwrap(), file.path()));
    let wanted = named.filter(|(name, _)| wanted(name));
    wanted
        .map(|(name, path)| (name, fs::read_to_string(path).unwrap()))
        .collect()
}

/// A text with each line that begins with a sign put behind the one above.
pub fn unfolded(text: &str) -> String {
    let mut lines: Vec<String> = Vec::new();
    for line in text.lines() {
        let begins = line.trim_start();
        match lines.last_mut() {
            Some(above) if begins.starts_with(['+', '-']) && begins != line => {
                *above += &format!(" {begins}");
            }
            _ => lines.push(line.into()),
        }
    }
    lines.join("\n") + "\n"
}

/// A printed number in thousandths; nothing for any other word.
pub fn number(word: &str) -> Option<i128> {
    let (sign, digits) = match word.strip_prefix('-') {
        Some(digits) => (-1, digits),
        None => (1, word),
    };
    let (whole, rest) = digits.split_once('.').unwrap_or((digits, ""));
    let whole: i128 = whole.replace(',', "").parse().ok()?;
    let rest: i128 = format!("{rest:0<3}").parse().ok()?;
    Some(sign * (1_000 * whole + rest))
}

/// The numbers of a text, in thousandths.
pub fn numbers(text: &str) -> Vec<i128> {
    text.split_whitespace().filter_map(number).collect()
}

/// What a printed sum comes to, in thousandths: "2 x 525.0 matched + 525.0 residual".
fn sum(text: &str) -> i128 {
    let (mut sum, mut sign, mut times) = (0, 1, 1);
    let words: Vec<&str> = text.split_whitespace().collect();
    for (at, word) in words.iter().enumerate() {
        match number(word) {
            Some(value) if words.get(at + 1) == Some(&"x") => times = value / 1_000,
            Some(value) => {
                sum += sign * times * value;
                times = 1;
            }
            None if *word == "-" => sign = -1,
            None if *word == "+" => sign = 1,
            None => (),
        }
    }
    sum
}

/// A line: its name, its figure, the sign and what stands right of it.
pub struct Line<'a> {
    pub name: &'a str,
    pub figure: i128,
    pub sign: &'a str,
    pub right: &'a str,
}

/// Takes a line apart.
pub fn line(text: &str) -> Line<'_> {
    let signs = [" = ", " >= ", " <= ", " > "];
    let found = signs
        .iter()
        .find_map(|sign| Some((sign, text.split_once(sign)?)));
    let (sign, (left, right)) = found.unwrap();
    let (name, figure) = left.trim_end().rsplit_once("  ").unwrap();
    Line {
        name: name.trim_end(),
        figure: number(figure).unwrap(),
        sign: sign.trim(),
        right,
    }
}

/// Whether a line is true as it is printed.
pub fn is_true(line: &Line) -> bool {
    let (left, right) = (line.figure, sum(line.right));
    match line.sign {
        "=" => left == right,
        ">=" => left >= right,
        ">" => left > right,
        _ => left <= right,
    }
}

/// The sum of a column, counted from the end of each line.
pub fn column(lines: &[&str], from_end: usize) -> i128 {
    let cell = |line: &&str| number(line.split_whitespace().rev().nth(from_end).unwrap());
    lines.iter().map(|line| cell(line).unwrap()).sum()
}

/// The last number of the line of a table that begins so.
pub fn last(lines: &[&str], name: &str) -> i128 {
    let line = lines.iter().find(|line| line.starts_with(name)).unwrap();
    *numbers(line).last().unwrap()
}

/// The last numbers of a line, in thousandths.
pub fn end<const N: usize>(line: &str) -> [i128; N] {
    let numbers = numbers(line);
    numbers[numbers.len() - N..].try_into().unwrap()
}

/// The stored ladders of currencies, or of commodities, with their names.
pub fn ladders(of: &str) -> Vec<(String, String)> {
    let stored = stored(|name| name.contains(&format!(".{of}-")));
    let unfolded = |(name, text): (String, String)| (name, unfolded(&text));
    stored.into_iter().map(unfolded).collect()
}

/// The last parts of a printed ladder: tables without their titles, and the last lines. A loaded table
/// is told of above the title.
pub fn parts<const N: usize>(text: &str) -> [Vec<&str>; N] {
    let parts: Vec<&str> = text.split("\n\n").collect();
    let first = parts.len() - N;
    std::array::from_fn(|at| {
        let titles = usize::from(at + 1 < N);
        parts[first + at].lines().skip(titles).collect()
    })
}
