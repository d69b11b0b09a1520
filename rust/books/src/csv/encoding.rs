//! Bytes as text.

use super::faults::LineError;
use super::records::lines_in;

/// Whether a byte can be of text: a printed sign, a tab or a line end, or a part of a letter that is not
/// of ASCII.
pub fn text_byte(byte: u8) -> bool {
    matches!(byte, b'\t' | b'\n' | b'\r' | 0x20..=0x7e | 0x80..)
}

/// Whether bytes begin as text in UTF-16 does: with its byte order mark, and three letters of two bytes
/// each, of which one is zero.
pub fn utf_16(bytes: &[u8]) -> bool {
    match *bytes {
        [0xff, 0xfe, a, 0, b, 0, c, 0, ..] | [0xfe, 0xff, 0, a, 0, b, 0, c, ..] => {
            [a, b, c].into_iter().all(text_byte)
        }
        _ => false,
    }
}

/// The text of bytes. Only UTF-8 without zeros is taken; else the first line that is none is told.
pub fn text_of(bytes: &[u8]) -> Result<&str, LineError> {
    let chunk = bytes.utf8_chunks().next();
    let good = chunk.map_or("", |chunk| chunk.valid());
    let text = good.split('\0').next().unwrap_or_default();
    if text.len() == bytes.len() {
        return Ok(text);
    }
    let found = if utf_16(bytes) { "UTF-16" } else { "not UTF-8" };
    let what = format!("{found} text; save it as CSV UTF-8");
    Err(LineError::new(1 + lines_in(text), what))
}

#[cfg(test)]
mod tests {
    use super::*;

    /// Catches UTF-16 of either order that is told as something else, and bytes that are taken for it.
    #[test]
    fn utf_16_is_told() {
        for order in [u16::to_le_bytes, u16::to_be_bytes] {
            let text = "\u{feff}class;group".encode_utf16().flat_map(order);
            let told = text_of(&text.collect::<Vec<u8>>()).unwrap_err();
            let expected = "line 1: UTF-16 text; save it as CSV UTF-8";
            assert_eq!(told.to_string(), expected);
        }
        assert!(!utf_16(b"\xff\xfea\0b\0"));
        assert!(!utf_16(b"\xff\xfea\0b\0\x01\0"));
        assert!(!utf_16(b"\xff\xfeabcdef"));
    }

    /// Catches a line that is counted from the wrong end, or twice where it ends with two signs.
    #[test]
    fn the_first_line_that_is_not_utf_8_is_told() {
        assert_eq!(
            text_of("\u{feff}caf\u{e9}".as_bytes()),
            Ok("\u{feff}caf\u{e9}")
        );
        for (bytes, line) in [
            (&b"\xe9"[..], 1),
            (b"a\r\nb\rc\n\ncaf\xe9,\n\xff", 5),
            (b"a\r\n\xc3", 2),
            (b"a\nb\0\nc", 2),
        ] {
            let told = text_of(bytes).unwrap_err().to_string();
            let what = "not UTF-8 text; save it as CSV UTF-8";
            assert_eq!(told, format!("line {line}: {what}"));
        }
    }
}
