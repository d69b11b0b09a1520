//! Text as a man page has it.

use crate::cli::layout::filled;
use crate::cli::Part;

/// The most columns of a line of the page's own text.
pub const WIDTH: usize = 79;

/// Text with what roff would read as its own made plain: backslashes, dashes that a reader types, and
/// a point or a quote that begins a line.
pub fn plain(text: &str) -> String {
    let text = text.replace('\\', "\\e").replace('-', "\\-");
    match text.starts_with(['.', '\'']) {
        true => format!("\\&{text}"),
        false => text,
    }
}

/// Words in lines that are not too long, none of which begins with a point or a quote.
fn words(words: &[&str]) -> String {
    filled(WIDTH, "", 0, words.iter().map(|word| plain(word)))
}

/// Sentences, each from a line of its own on.
fn sentences(text: &str) -> String {
    let all: Vec<&str> = text.split_whitespace().collect();
    let sentences = all.split_inclusive(|word| word.ends_with('.'));
    sentences.map(words).collect()
}

/// A paragraph.
pub fn paragraph(text: &str) -> String {
    format!(".PP\n{}", sentences(text))
}

/// Lines that stand as they are, set in.
pub fn lines<'a>(lines: impl IntoIterator<Item = &'a str>) -> String {
    let lines = lines.into_iter().map(|line| plain(line) + "\n");
    format!(".PP\n.RS 4\n.nf\n{}.fi\n.RE\n", lines.collect::<String>())
}

/// A word with what it stands for.
pub fn item(word: &str, about: &str) -> String {
    format!(".TP\n.B {}\n{}", plain(word), sentences(about))
}

/// A part of a text.
pub fn part(part: &Part) -> String {
    match part {
        Part::Text(text) => paragraph(text),
        Part::Lines(all) => lines(all.iter().copied()),
        Part::Words(all) => all.iter().map(|(word, about)| item(word, about)).collect(),
    }
}

#[cfg(test)]
mod tests {
    use super::*;

    /// Catches text that roff takes for a request or an escape, which is then not printed.
    #[test]
    fn roff_finds_nothing_of_its_own_in_text() {
        assert_eq!(plain("a\\b --c"), "a\\eb \\-\\-c");
        assert_eq!(plain(".book"), "\\&.book");
        assert_eq!(plain("'tis 1.5"), "\\&'tis 1.5");
        let two = sentences("One is 1.5\n  of two. 'Two' is\n.5 of it.");
        assert_eq!(two, "One is 1.5 of two.\n\\&'Two' is \\&.5 of it.\n");
        let long = sentences(&"wide ".repeat(17));
        assert_eq!(long, format!("{}wide\n{}wide\n", "wide ".repeat(15), ""));
    }

    #[test]
    fn parts_are_set_apart() {
        let text = part(&Part::Lines(&["a,b", ".c"]));
        assert_eq!(text, ".PP\n.RS 4\n.nf\na,b\n\\&.c\n.fi\n.RE\n");
        let text = part(&Part::Words(&[("-o", "writes."), ("16", "")]));
        assert_eq!(text, ".TP\n.B \\-o\nwrites.\n.TP\n.B 16\n");
    }
}
