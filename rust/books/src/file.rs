//! A book as four lists of rows, and its bytes.

/// The number of classes: interest, equity, foreign exchange, commodities.
pub const CLASSES: usize = 4;

/// The bytes of a row.
pub const ROW_BYTES: usize = 16;

/// The most rows of an accepted book.
pub const MOST_ROWS: usize = 4_000;

/// One row with every field that its 16 bytes hold.
#[derive(Clone, Copy, Debug, Default, PartialEq, Eq)]
pub struct Row {
    pub group: u8,
    pub kind: u8,
    /// Days to maturity; of a floating-rate note, to the next fixing.
    pub days: u16,
    /// The coupon; of a floating-rate note, the days to final maturity.
    pub coupon: u16,
    pub issue: u16,
    pub long: u32,
    pub short: u32,
}

impl Row {
    /// The row's 16 bytes, low byte first in each field.
    pub fn encode(&self) -> [u8; ROW_BYTES] {
        let mut bytes = [0; ROW_BYTES];
        bytes[0] = self.group;
        bytes[1] = self.kind;
        bytes[2..4].copy_from_slice(&self.days.to_le_bytes());
        bytes[4..6].copy_from_slice(&self.coupon.to_le_bytes());
        bytes[6..8].copy_from_slice(&self.issue.to_le_bytes());
        bytes[8..12].copy_from_slice(&self.long.to_le_bytes());
        bytes[12..16].copy_from_slice(&self.short.to_le_bytes());
        bytes
    }

    /// The fields of 16 bytes.
    pub fn decode(bytes: &[u8; ROW_BYTES]) -> Row {
        let two = |at: usize| u16::from_le_bytes([bytes[at], bytes[at + 1]]);
        let four = |at: usize| u32::from(two(at)) | u32::from(two(at + 2)) << 16;
        Row {
            group: bytes[0],
            kind: bytes[1],
            days: two(2),
            coupon: two(4),
            issue: two(6),
            long: four(8),
            short: four(12),
        }
    }

    /// The row in another group.
    pub fn with_group(self, group: u8) -> Row {
        Row { group, ..self }
    }

    /// The row with another kind.
    pub fn with_kind(self, kind: u8) -> Row {
        Row { kind, ..self }
    }

    /// The row with other days.
    pub fn with_days(self, days: u16) -> Row {
        Row { days, ..self }
    }

    /// The row with another coupon.
    pub fn with_coupon(self, coupon: u16) -> Row {
        Row { coupon, ..self }
    }

    /// The row with another issue number.
    pub fn with_issue(self, issue: u16) -> Row {
        Row { issue, ..self }
    }

    /// The row with other amounts.
    pub fn with_sides(self, long: u32, short: u32) -> Row {
        Row {
            long,
            short,
            ..self
        }
    }

    /// The row with long and short exchanged.
    pub fn mirrored(self) -> Row {
        self.with_sides(self.short, self.long)
    }
}

/// The rows of a book, class by class.
#[derive(Clone, Debug, Default, PartialEq, Eq)]
pub struct Book {
    pub classes: [Vec<Row>; CLASSES],
}

impl Book {
    /// The number of rows of all classes.
    pub fn rows(&self) -> usize {
        self.classes.iter().map(Vec::len).sum()
    }

    /// The file's bytes. A class of more than 65,535 rows has no count and gives nothing.
    pub fn encode(&self) -> Option<Vec<u8>> {
        let mut bytes = Vec::with_capacity(8 + ROW_BYTES * self.rows());
        for class in &self.classes {
            bytes.extend(u16::try_from(class.len()).ok()?.to_le_bytes());
        }
        for row in self.classes.iter().flatten() {
            bytes.extend(row.encode());
        }
        Some(bytes)
    }

    /// The rows of a file whose length agrees with its counts, else nothing.
    pub fn decode(bytes: &[u8]) -> Option<Book> {
        let (head, body) = (bytes.get(..8)?, &bytes[8..]);
        let counts = head
            .chunks_exact(2)
            .map(|pair| usize::from(u16::from_le_bytes([pair[0], pair[1]])));
        if body.len() != ROW_BYTES * counts.clone().sum::<usize>() {
            return None;
        }
        let mut rows = body
            .chunks_exact(ROW_BYTES)
            .map(|bytes| Row::decode(bytes.try_into().expect("chunks of 16 bytes")));
        let mut book = Book::default();
        for (class, count) in book.classes.iter_mut().zip(counts) {
            class.extend(rows.by_ref().take(count));
        }
        Some(book)
    }

    /// The class, 0 to 3, and the row with this number in the whole file.
    pub fn row(&self, number: usize) -> Option<(usize, Row)> {
        let rows = self.classes.iter().enumerate();
        rows.flat_map(|(class, rows)| rows.iter().map(move |row| (class, *row)))
            .nth(number)
    }
}

#[cfg(test)]
mod tests {
    use super::*;

    #[test]
    fn fields_lie_where_document_01_puts_them() {
        let row = Row {
            group: 1,
            kind: 2,
            days: 0x0403,
            coupon: 0x0605,
            issue: 0x0807,
            long: 0x0c0b_0a09,
            short: 0x100f_0e0d,
        };
        let bytes: Vec<u8> = (1..=16).collect();
        assert_eq!(row.encode().to_vec(), bytes);
        assert_eq!(Row::decode(&row.encode()), row);
    }

    #[test]
    fn a_book_comes_back_and_rows_are_numbered_through() {
        let mut book = Book::default();
        book.classes[1].push(Row {
            group: 3,
            ..Row::default()
        });
        book.classes[3] = vec![Row::default(); 2];
        let bytes = book.encode().unwrap();
        assert_eq!(bytes[..8], [0, 0, 1, 0, 0, 0, 2, 0]);
        assert_eq!(Book::decode(&bytes), Some(book.clone()));
        assert_eq!(
            book.row(0).map(|(class, row)| (class, row.group)),
            Some((1, 3))
        );
        assert_eq!(book.row(2).map(|(class, _)| class), Some(3));
        assert_eq!(book.row(3), None);
    }

    #[test]
    fn a_file_that_does_not_agree_with_its_counts_has_no_rows() {
        assert_eq!(Book::decode(&[0; 7]), None);
        assert_eq!(Book::decode(&[0; 9]), None);
        assert_eq!(Book::decode(&[1, 0, 0, 0, 0, 0, 0, 0]), None);
        let mut long = Book::default();
        long.classes[0] = vec![Row::default(); 65_536];
        assert_eq!(long.encode(), None);
    }
}
