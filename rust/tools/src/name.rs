//! A file's own name, as figures and pages show it: without its folders, so that what is printed is
//! the same wherever the file stands.

use crate::files::input;
use std::path::Path;

/// The most columns that a name takes.
const MOST: usize = 60;

/// What stands where a name is cut.
const CUT: &str = "...";

/// Whether a sign would end a line, or turn or hide what follows it.
fn breaks(sign: char) -> bool {
    let turns = matches!(sign, '\u{61c}' | '\u{200e}' | '\u{200f}' | '\u{feff}');
    let ends = matches!(sign, '\u{2028}'..='\u{202e}' | '\u{2066}'..='\u{2069}');
    sign.is_control() || turns || ends
}

/// A sign as it is shown, and the most columns that it takes: a terminal may show any sign from
/// U+1100 on in two.
fn shown(sign: char) -> (String, usize) {
    if breaks(sign) {
        let text = sign.escape_default().to_string();
        let columns = text.len();
        return (text, columns);
    }
    (sign.into(), if sign < '\u{1100}' { 1 } else { 2 })
}

/// A text on one line of at most 60 columns, cut where it is longer.
fn line(text: &str) -> String {
    let signs: Vec<(String, usize)> = text.chars().map(shown).collect();
    let all: usize = signs.iter().map(|(_, columns)| columns).sum();
    let room = if all > MOST { MOST - CUT.len() } else { MOST };
    let mut taken = 0;
    let fits = signs.iter().take_while(|(_, columns)| {
        taken += columns;
        taken <= room
    });
    let text: String = fits.map(|(sign, _)| sign.as_str()).collect();
    text + if all > MOST { CUT } else { "" }
}

/// The name of a file that is read, without its folders, on one line of at most 60 columns.
pub fn name(path: &Path) -> String {
    match path.file_name() {
        Some(own) if path.as_os_str() != "-" => line(&own.to_string_lossy()),
        _ => line(&input(path)),
    }
}

#[cfg(test)]
mod tests {
    use super::*;
    use std::ffi::OsStr;
    use std::os::unix::ffi::OsStrExt;

    /// Catches a name that has its folders, and one of standard input that is a dash.
    #[test]
    fn a_name_is_the_same_wherever_the_file_stands() {
        let deep = format!("/{}own table", "a folder/".repeat(30));
        for path in ["own table", "./own table", "../x/own table", &deep] {
            assert_eq!(name(Path::new(path)), "own table");
        }
        assert_eq!(name(Path::new("-")), "standard input");
        assert_eq!(name(Path::new("a folder/-")), "-");
        assert_eq!(name(Path::new("..")), "..");
    }

    /// Catches a limit that is one off, or that is counted in bytes.
    #[test]
    fn a_long_name_is_cut() {
        let shown = |sign: &str, count| name(Path::new(&sign.repeat(count)));
        for sign in ["a", "é"] {
            assert_eq!(shown(sign, 60), sign.repeat(60));
            assert_eq!(shown(sign, 61), format!("{}...", sign.repeat(57)));
        }
        assert_eq!(shown("表", 30), "表".repeat(30));
        assert_eq!(shown("表", 31), format!("{}...", "表".repeat(28)));
    }

    /// Catches a sign that ends the line or turns it round, an escape that is cut in two or not
    /// counted, and bytes that are no text.
    #[test]
    fn a_name_of_any_bytes_is_one_short_line() {
        assert_eq!(name(Path::new("a\r\nb\t\u{1b}[2J")), r"a\r\nb\t\u{1b}[2J");
        assert_eq!(
            name(Path::new("\u{2028}'\\\u{202e}")),
            r"\u{2028}'\\u{202e}"
        );
        let escapes = name(Path::new(&"\u{1b}".repeat(255)));
        assert_eq!(escapes, format!("{}...", r"\u{1b}".repeat(9)));
        for byte in (1..=255).filter(|byte| *byte != b'/') {
            let bytes = [byte; 255];
            let shown = name(Path::new(OsStr::from_bytes(&bytes)));
            assert!(shown.chars().count() <= MOST, "{shown}");
            assert!(!shown.is_empty() && !shown.contains(breaks), "{shown:?}");
        }
    }
}
