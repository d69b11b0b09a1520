//! The books that a run has netted: with issues of each sort, and refused in each way and place of
//! the order.

use super::case::Case;
use super::issues::{issues, Issue};
use super::net_sorts::{only_field, orders, sorts, FIELDS, ORDERS, SORTS};
use books::Book;
use std::fmt;

/// Counts of first books, and of their outputs.
#[derive(Default)]
pub struct Nets {
    /// Netted books by their sort, where there was room for them.
    pub sorts: [u64; 6],
    /// Books by the number of their refusal, 1 to 9 or 12 to 15.
    pub refused: [u64; 16],
    /// Books refused with 13 for one field alone.
    pub fields: [u64; 5],
    /// Refused books by what else there was.
    pub orders: [u64; 7],
    /// Outputs that are just long enough, longer, and one byte short.
    pub rooms: [u64; 3],
}

/// The numbers of this call's refusals.
fn numbers() -> impl Iterator<Item = usize> {
    (1..=9).chain(12..=15)
}

/// Counts what is so.
pub fn add<const N: usize>(counts: &mut [u64; N], seen: [bool; N]) {
    let counts = counts.iter_mut().zip(seen);
    counts.for_each(|(count, seen)| *count += u64::from(seen));
}

impl Nets {
    /// Counts the first book of a case and its output.
    pub fn count(&mut self, case: &Case) {
        let (book, room) = (Book::decode(&case.a).unwrap_or_default(), case.net_room);
        let issues = issues(&book);
        let mut out = vec![0; room];
        let refusal = second::net(&case.a, &mut out).refusal;
        let (number, row) = (refusal.number, refusal.row as usize);
        match second::netted(&case.a) {
            Ok(netted) => {
                let length = netted.len();
                let rooms = [room == length, room > length, room + 1 == length];
                add(&mut self.rooms, rooms);
                // Without room nothing was written, and nothing compared.
                let written = room >= length;
                let seen = sorts(&book, &issues, (length - 8) / 16);
                add(&mut self.sorts, seen.map(|seen| seen && written));
            }
            Err(_) => {
                add(&mut self.orders, orders(&issues, number, row, room));
                self.count_field(&book, &issues, number, row);
            }
        }
        self.refused[number as usize] += 1;
    }

    /// Counts the field of a row that is unlike the first of its issue.
    fn count_field(&mut self, book: &Book, issues: &[Issue], number: u64, row: usize) {
        let own = |issue: &&Issue| issue.rows.iter().any(|(at, _)| *at == row);
        if let (13, Some(issue)) = (number, issues.iter().find(own)) {
            let unlike = book.row(row).map(|(_, row)| row).unwrap_or_default();
            if let Some(field) = only_field(issue.class, &issue.rows[0].1, &unlike) {
                self.fields[field] += 1;
            }
        }
    }

    /// Every count beside its name.
    pub fn named(&self) -> Vec<(String, u64)> {
        let [exact, longer, short] = self.rooms;
        let plain = [
            ("outputs of netting that are just long enough", exact),
            ("outputs of netting that are longer", longer),
            ("outputs of netting that are one byte short", short),
        ];
        let plain = plain.map(|(name, count)| (name.to_string(), count));
        let sorts = SORTS.iter().zip(self.sorts);
        let sorts = sorts.map(|(name, count)| (format!("books netted {name}"), count));
        let fields = FIELDS.iter().zip(self.fields);
        let fields = fields.map(|(name, count)| (format!("nets refused 13 for {name}"), count));
        let orders = ORDERS.iter().zip(self.orders);
        let orders = orders.map(|(name, count)| (format!("nets refused, {name}"), count));
        let refused = numbers().map(|at| (format!("nets refused {at}"), self.refused[at]));
        let first = plain.into_iter().chain(sorts).chain(fields);
        first.chain(orders).chain(refused).collect()
    }
}

/// Names beside their counts.
pub fn listed(names: &[&str], counts: &[u64]) -> String {
    let pairs = names.iter().zip(counts);
    let pairs = pairs.map(|(name, count)| format!("{name} {count}"));
    pairs.collect::<Vec<_>>().join(", ")
}

impl fmt::Display for Nets {
    fn fmt(&self, out: &mut fmt::Formatter) -> fmt::Result {
        let [exact, longer, short] = self.rooms;
        let refused: Vec<String> = numbers()
            .map(|number| format!("{number}: {}", self.refused[number]))
            .collect();
        write!(
            out,
            "books netted {}: {}\noutputs of netting just long enough {exact}, longer {longer}, one \
             byte short {short}; refused {}\nof these 13 for {}\nand {}",
            self.refused[0],
            listed(&SORTS, &self.sorts),
            refused.join(", "),
            listed(&FIELDS, &self.fields),
            listed(&ORDERS, &self.orders)
        )
    }
}

#[cfg(test)]
mod tests {
    use super::*;
    use books::Row;

    const MOST: u32 = 1_000_000_000;

    fn row(issue: u16, long: u32, short: u32) -> Row {
        let row = Row::default().with_group(7).with_kind(1);
        row.with_issue(issue).with_sides(long, short)
    }

    /// What is counted of a book of interest and equity rows, by its names, with so much room.
    fn counted(interest: &[Row], equity: &[Row], room: usize) -> Vec<String> {
        let mut book = Book::default();
        (book.classes[0], book.classes[1]) = (interest.to_vec(), equity.to_vec());
        let mut nets = Nets::default();
        nets.count(&Case {
            a: book.encode().unwrap(),
            net_room: room,
            ..Case::new(1, 1)
        });
        let named = nets.named().into_iter();
        let seen = named.filter(|(_, count)| *count > 0);
        seen.map(|(name, count)| {
            assert_eq!(count, 1, "{name}");
            name
        })
        .collect()
    }

    /// Catches a sort that is counted for another, or where it is not.
    #[test]
    fn netted_books_count_by_their_sorts() {
        let exact = "outputs of netting that are just long enough";
        type Rows<'a> = &'a [Row];
        let cases: [(Rows, Rows, usize, &[&str]); 7] = [
            (&[row(5, 1, 0)], &[], 24, &[]),
            (&[row(5, 1, 0), row(5, 1, 0)], &[], 24, &[SORTS[0]]),
            (&[row(5, 1, 0), row(5, 0, 1)], &[], 8, &[SORTS[0], SORTS[1]]),
            (&[row(5, 1, 0)], &[row(5, 1, 0)], 40, &[SORTS[2]]),
            (&[row(0, 1, 0), row(0, 0, 1)], &[], 40, &[SORTS[3]]),
            (&[row(0, 1, 0), row(0, 0, 1).with_days(9)], &[], 40, &[]),
            (
                &[row(5, MOST, 0), row(5, MOST, 0), row(5, 0, MOST)],
                &[],
                24,
                &[SORTS[0], SORTS[4], SORTS[5]],
            ),
        ];
        for (interest, equity, room, sorts) in cases {
            let mut expected = vec![exact.to_string()];
            expected.extend(sorts.iter().map(|sort| format!("books netted {sort}")));
            assert_eq!(counted(interest, equity, room), expected);
        }
        let one = [row(5, 1, 0)];
        let longer = ["outputs of netting that are longer"];
        assert_eq!(counted(&one, &[], 25), longer);
        let short = [
            "outputs of netting that are one byte short",
            "nets refused 12",
        ];
        assert_eq!(counted(&one, &[], 23), short);
        assert_eq!(counted(&one, &[], 22), ["nets refused 12"]);
        let pair = [row(5, 1, 0), row(5, 0, 1)];
        assert_eq!(counted(&pair, &[], 6), ["nets refused 12"]);
    }

    /// Catches a field that is counted for another, and one beside others.
    #[test]
    fn thirteen_counts_by_its_field() {
        let (one, note) = (row(5, 1, 0), row(5, 1, 0).with_kind(4).with_coupon(9));
        for (first, other, field) in [
            (one, one.with_group(8), Some("group")),
            (one, one.with_kind(2), Some("kind")),
            (one, one.with_days(1), Some("days")),
            (one, one.with_coupon(1), Some("coupon")),
            (note, note.with_coupon(8), Some("final maturity")),
            (one, one.with_days(1).with_coupon(1), None),
        ] {
            let mut expected: Vec<String> = Vec::new();
            expected.extend(field.map(|field| format!("nets refused 13 for {field}")));
            expected.push("nets refused 13".into());
            assert_eq!(counted(&[first, other], &[], 100), expected);
        }
    }

    /// Catches an order that is counted for another, or where the second fault is not there.
    #[test]
    fn refusals_count_by_what_else_there_is() {
        let (one, other, bad) = (row(5, 1, 0), row(5, 1, 0).with_kind(2), row(0, 0, 0));
        let most = [row(6, MOST, 0), row(6, MOST, 0)];
        let refused = |interest: &[Row], equity: &[Row], room: usize| {
            let names = counted(interest, equity, room);
            let names = names
                .iter()
                .filter_map(|name| name.strip_prefix("nets refused, "));
            names.map(String::from).collect::<Vec<_>>()
        };
        assert_eq!(refused(&[one, other], &[one, other], 9), [ORDERS[0]]);
        assert_eq!(refused(&[one, other], &[one], 9), [""; 0]);
        assert_eq!(refused(&most, &most, 9), [ORDERS[1]]);
        assert_eq!(refused(&most, &[one, other], 9), [ORDERS[2]]);
        assert_eq!(refused(&[one, other], &most, 9), [""; 0]);
        assert_eq!(refused(&[one, other, bad], &[], 9), [ORDERS[3]]);
        assert_eq!(refused(&[bad, one, other], &[], 9), [""; 0]);
        assert_eq!(refused(&[most[0], most[1], bad], &[], 9), [ORDERS[4]]);
        assert_eq!(refused(&[most[0], bad, most[1]], &[], 9), [""; 0]);
        assert_eq!(refused(&[one, other], &[], 7), [ORDERS[5]]);
        assert_eq!(refused(&most, &[], 7), [ORDERS[6]]);
    }
}
