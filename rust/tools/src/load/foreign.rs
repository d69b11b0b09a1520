//! Files that are neither a book nor its text, told by what they are. None of them is an accepted book or
//! option table, or text that would be taken.

use super::is_text;
use books::csv::text_byte;

/// How a file begins, what it is, and what to do.
type Beginning = (&'static [u8], &'static str);

/// Files of other programs. Taken for a count, the first two bytes of each are too many rows.
const BYTES: [Beginning; 5] = [
    (
        b"PK\x03\x04",
        "a spreadsheet file (.xlsx, .ods) or another zip archive: save the sheet as CSV UTF-8",
    ),
    (
        b"\xd0\xcf\x11\xe0\xa1\xb1\x1a\xe1",
        "a spreadsheet file (.xls): save the sheet as CSV UTF-8",
    ),
    (b"\x7fELF", "a program: name the file of positions"),
    (b"\x1f\x8b", "a compressed file: unpack it with gunzip"),
    (b"\xfd7zXZ", "a compressed file: unpack it with unxz"),
];

/// Texts of other forms, and a compressed file whose first ten bytes are letters and digits. No header begins so.
const TEXTS: [Beginning; 6] = [
    (b"BZh", "a compressed file: unpack it with bunzip2"),
    (
        b"%PDF-",
        "a PDF document: export the positions as CSV UTF-8",
    ),
    (
        b"{\\rtf",
        "a text document (RTF): save the positions as CSV UTF-8",
    ),
    (b"{", "JSON: write the positions as CSV UTF-8"),
    (b"[", "JSON: write the positions as CSV UTF-8"),
    (b"<", "HTML or XML: save the sheet as CSV UTF-8"),
];

/// How many bytes are looked at for text of two bytes a letter: a whole row of a book among them.
const SEEN: usize = 24;

/// Whether bytes begin as text of two bytes a letter does, without a mark of their order: of each letter one
/// byte is zero. A book whose contents have such bytes has rows, and a row of them has both amounts.
fn two_bytes_a_letter(file: &[u8]) -> bool {
    let Some(seen) = file.get(..SEEN) else {
        return false;
    };
    let letters = |[letter, zero]: [usize; 2]| {
        let mut pairs = seen.chunks_exact(2);
        pairs.all(|pair| pair[zero] == 0 && text_byte(pair[letter]))
    };
    letters([0, 1]) || letters([1, 0])
}

/// What a file of another program is, and what to do; nothing for any other.
pub fn foreign(file: &[u8]) -> Option<&'static str> {
    let text = file.strip_prefix(b"\xef\xbb\xbf").unwrap_or(file);
    let (known, begin): (&[Beginning], _) = match is_text(file) {
        true => (&TEXTS, text.trim_ascii_start()),
        false => (&BYTES, file),
    };
    let found = known.iter().find(|(first, _)| begin.starts_with(first));
    let two_bytes = two_bytes_a_letter(file);
    found
        .map(|(_, words)| *words)
        .or(two_bytes.then_some("UTF-16 text without a mark: save it as CSV UTF-8"))
}

#[cfg(test)]
mod tests {
    use super::*;

    /// Catches a spreadsheet that is told by the counts of a packed book, and one that is told as another.
    #[test]
    fn files_of_other_programs_are_told_by_what_they_are() {
        for (bytes, words) in [
            (&b"PK\x03\x04\x14\0\x06\0\x08\0"[..], "(.xlsx, .ods)"),
            (b"\xd0\xcf\x11\xe0\xa1\xb1\x1a\xe1\0\0", "(.xls)"),
            (b"\x7fELF\x02\x01\x01\0\0\0", "a program"),
            (b"\x1f\x8b\x08\0\0\0\0\0\0\0", "gunzip"),
            (b"BZh91AY&SY\x9a\x01", "bunzip2"),
            (b"\xfd7zXZ\0\0\x04\xe6", "unxz"),
            (b"%PDF-1.7\n%", "PDF"),
            (b"{\\rtf1\\ansi", "RTF"),
            (b"\n {\"rows\": []}", "JSON"),
            (b"\xef\xbb\xbf<html><table>", "HTML"),
            (b"c\0l\0a\0s\0s\0,\0g\0r\0o\0u\0p\0,\0k\0", "UTF-16"),
            (b"\0c\0l\0a\0s\0s\0,\0g\0r\0o\0u\0p\0,\0k", "UTF-16"),
        ] {
            let told = foreign(bytes).unwrap_or_default();
            assert!(told.contains(words), "{bytes:?}: {told}");
        }
        for bytes in [
            &b""[..],
            b"class,group,kind",
            b"# a comment",
            b"sep=;\nclass",
            b"{\0\0\0\0\0\0\0\0",
            &[0; 24],
            b"c\0l\0a\0s\0s\0,\0g\0r\0o\0u\0p\0\0\0",
        ] {
            assert_eq!(foreign(bytes), None, "{bytes:?}");
        }
    }

    /// Catches an accepted book that is told as another file.
    #[test]
    fn no_accepted_book_is_told_as_another_file() {
        for (begin, _) in BYTES {
            assert!(u16::from_le_bytes([begin[0], begin[1]]) > 4_000);
        }
        for letter in [[9, 0], [0, 9]] {
            let book = letter.repeat(4 + 8 * 36);
            assert!(two_bytes_a_letter(&book));
            assert_eq!(market_risk::check(&book).unwrap_err().row, 0);
        }
    }
}
