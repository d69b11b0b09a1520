//! Text laid out in lines of at most 100 columns.

/// The most columns of a line.
pub const WIDTH: usize = 100;

/// Words filled into lines of at most so many columns: the first line begins with what is given, the
/// others with as many blanks as are told.
pub fn filled<W: AsRef<str>>(
    width: usize,
    begin: &str,
    blanks: usize,
    words: impl IntoIterator<Item = W>,
) -> String {
    let (mut text, mut line) = (String::new(), begin.to_string());
    let mut empty = true;
    for word in words {
        let word = word.as_ref();
        let wide = line.chars().count() + usize::from(!empty) + word.chars().count();
        if !empty && wide > width {
            text.push_str(line.trim_end());
            text.push('\n');
            (line, empty) = (" ".repeat(blanks), true);
        }
        if !empty {
            line.push(' ');
        }
        line.push_str(word);
        empty = false;
    }
    text + line.trim_end() + "\n"
}

/// A paragraph.
pub fn paragraph(text: &str) -> String {
    filled(WIDTH, "", 0, text.split_whitespace())
}

/// Words with what they stand for, in two columns.
pub fn columns<T: AsRef<str>>(rows: &[(T, &str)]) -> String {
    let wide = |(word, _): &(T, &str)| word.as_ref().chars().count();
    let wide = rows.iter().map(wide).max().unwrap_or(0);
    let row = |(word, about): &(T, &str)| {
        let begin = format!("  {:<wide$}  ", word.as_ref());
        filled(WIDTH, &begin, wide + 4, about.split_whitespace())
    };
    rows.iter().map(row).collect()
}

#[cfg(test)]
mod tests {
    use super::*;

    /// Catches a line of 101 columns, a break before it is due, and lines that are not set in.
    #[test]
    fn lines_have_at_most_100_columns() {
        let (half, rest) = ("x".repeat(49), "y".repeat(50));
        let words = format!("{half} {rest}  \n z");
        assert_eq!(paragraph(&words), format!("{half} {rest}\nz\n"));
        let words = format!("{half} {rest}y z");
        assert_eq!(paragraph(&words), format!("{half}\n{rest}y z\n"));
        let long = "l".repeat(120);
        assert_eq!(paragraph(&format!("{long} z")), format!("{long}\nz\n"));
        assert_eq!(paragraph(""), "\n");
    }

    #[test]
    fn columns_are_as_wide_as_their_words() {
        let (half, rest) = ("x".repeat(47), "y".repeat(45));
        let about = format!("{half} {rest} z");
        let text = columns(&[("one", "1"), ("k", &about)]);
        let expected = format!("  one  1\n  k    {half} {rest}\n       z\n");
        assert_eq!(text, expected);
        assert_eq!(columns(&[("one", "")]), "  one\n");
    }
}
