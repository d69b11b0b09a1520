//! The books that a run has netted and offset in one call: where the order matters, into outputs of
//! each length, and refused in each way.

use super::case::Case;
use super::nets::{add, listed};
use std::fmt;

/// Counts of first books, and of their outputs.
#[derive(Default)]
pub struct Both {
    /// Books by what the order does to them, where there was room for what is left.
    pub sorts: [u64; 5],
    /// Books by the number of their refusal, 1 to 9 or 12 to 15.
    pub refused: [u64; 16],
    /// Books refused with 13 and 14 that offsetting first hides.
    pub hidden: [u64; 2],
    /// Outputs that are just long enough, longer, one byte short, and too short for the netted book
    /// alone.
    pub rooms: [u64; 4],
    /// Books that cost less and more than in the other order, under an accepted table.
    pub costs: [u64; 2],
}

/// What the order may do to a book.
const SORTS: [&str; 5] = [
    "with an issue and a pair",
    "with more pairs than before netting",
    "with fewer pairs than before netting",
    "that keep more rows than in the other order",
    "that keep fewer rows than in the other order",
];

/// The names of the lengths of outputs.
const ROOMS: [&str; 4] = [
    "that are just long enough",
    "that are longer",
    "that are one byte short",
    "that are too short for the netted book alone",
];

/// What the order may do to a total.
const COSTS: [&str; 2] = [
    "cheaper than in the other order",
    "dearer than in the other order",
];

/// The numbers of this call's refusals.
fn numbers() -> impl Iterator<Item = usize> {
    (1..=9).chain(12..=15)
}

/// A book offset and then netted.
fn other_order(book: &[u8]) -> Result<Vec<u8>, second::Refusal> {
    second::offset_book(book).and_then(|offset| second::netted(&offset))
}

/// Which of the sorts a book is of, by what is left of it.
fn sorts(book: &[u8], left: &[u8]) -> [bool; 5] {
    let length = |written: Result<Vec<u8>, second::Refusal>| written.map_or(0, |book| book.len());
    let [netted, offset] = [second::netted(book), second::offset_book(book)].map(length);
    let other = length(other_order(book));
    let (pairs, before) = (netted - left.len(), book.len() - offset);
    [
        netted < book.len() && pairs > 0,
        pairs > before,
        pairs < before,
        other > 0 && left.len() > other,
        left.len() < other,
    ]
}

impl Both {
    /// Counts the first book of a case and its output.
    pub fn count(&mut self, case: &Case) {
        let room = case.both_room;
        let refusal = second::net_and_offset(&case.a, &mut vec![0; room]).refusal;
        self.refused[refusal.number as usize] += 1;
        let Ok(left) = second::net_and_offset_book(&case.a) else {
            let hidden = other_order(&case.a).is_ok();
            add(
                &mut self.hidden,
                [13, 14].map(|number| hidden && refusal.number == number),
            );
            return;
        };
        let (length, netted) = (
            left.len(),
            second::netted(&case.a).map_or(0, |book| book.len()),
        );
        let rooms = [
            room == length,
            room > length,
            room + 1 == length,
            (length..netted).contains(&room),
        ];
        add(&mut self.rooms, rooms);
        // Without room nothing was written, and nothing compared.
        if room >= length {
            add(&mut self.sorts, sorts(&case.a, &left));
        }
        if let (Ok(_), Ok(other)) = (second::read_table(&case.table), other_order(&case.a)) {
            let [own, other] = [&left, &other].map(|book| second::charge(book, &case.table).total);
            add(&mut self.costs, [own < other, own > other]);
        }
    }

    /// Every count beside its name.
    pub fn named(&self) -> Vec<(String, u64)> {
        let named = |what: &str, names: &[&str], counts: &[u64]| -> Vec<(String, u64)> {
            let counts = names.iter().zip(counts);
            let named = counts.map(|(name, count)| (format!("{what} {name}"), *count));
            named.collect()
        };
        let refused = numbers().map(|at| (format!("both refused {at}"), self.refused[at]));
        let [thirteen, fourteen] = self.hidden;
        [
            named("outputs of both", &ROOMS, &self.rooms),
            named("books netted and offset", &SORTS, &self.sorts),
            named("books netted and offset", &COSTS, &self.costs),
            vec![
                (
                    "both refused 13, hidden in the other order".into(),
                    thirteen,
                ),
                (
                    "both refused 14, hidden in the other order".into(),
                    fourteen,
                ),
            ],
            refused.collect(),
        ]
        .concat()
    }
}

impl fmt::Display for Both {
    fn fmt(&self, out: &mut fmt::Formatter) -> fmt::Result {
        let refused: Vec<String> = numbers()
            .map(|number| format!("{number}: {}", self.refused[number]))
            .collect();
        let [thirteen, fourteen] = self.hidden;
        write!(
            out,
            "books netted and offset {}: {}; {}\noutputs of both {}; refused {}, of these hidden in \
             the other order 13: {thirteen}, 14: {fourteen}",
            self.refused[0],
            listed(&SORTS, &self.sorts),
            listed(&COSTS, &self.costs),
            listed(&ROOMS, &self.rooms),
            refused.join(", ")
        )
    }
}

#[cfg(test)]
mod tests {
    use super::*;
    use books::{Book, Row};

    /// What is counted of a book of legs by days, issue and net, by its names, with so much room.
    fn counted(legs: &[(u16, u16, i64)], room: usize, table: &[u8]) -> Vec<String> {
        let leg = |(days, issue, net): &(u16, u16, i64)| {
            let [long, short] = [net.max(&0), &(-net).max(0)].map(|side| *side as u32);
            let row = Row::default().with_kind(1).with_days(*days);
            row.with_coupon(800)
                .with_issue(*issue)
                .with_sides(long, short)
        };
        let mut book = Book::default();
        book.classes[0] = legs.iter().map(leg).collect();
        let mut both = Both::default();
        both.count(&Case {
            a: book.encode().unwrap(),
            both_room: room,
            table: table.to_vec(),
            ..Case::new(1, 1)
        });
        let seen = both.named().into_iter().filter(|(_, count)| *count > 0);
        seen.map(|(name, count)| {
            assert_eq!(count, 1, "{name}");
            name
        })
        .collect()
    }

    /// The two sorts of the request.
    const SHARED: [(u16, u16, i64); 3] = [(900, 0, 100), (910, 7, -100), (910, 7, 40)];
    const TOGETHER: [(u16, u16, i64); 3] = [(900, 0, 100), (910, 7, -60), (910, 7, -40)];

    /// Catches a sort that is counted for another, or where it is not; and books that count without
    /// room.
    #[test]
    fn books_count_by_what_the_order_does() {
        let exact = "outputs of both that are just long enough".to_string();
        let named = |sorts: &[usize]| -> Vec<String> {
            let sorts = sorts
                .iter()
                .map(|at| format!("books netted and offset {}", SORTS[*at]));
            [exact.clone()].into_iter().chain(sorts).collect()
        };
        let short = [0; 35];
        assert_eq!(counted(&SHARED, 40, &short), named(&[2, 3]));
        let mut fewer = named(&[0, 1, 4]);
        fewer.insert(1, format!("outputs of both {}", ROOMS[3]));
        assert_eq!(counted(&TOGETHER, 8, &short), fewer);
        let pair = [(900, 0, 100), (910, 7, -100)];
        let mut both = named(&[]);
        both.insert(1, format!("outputs of both {}", ROOMS[3]));
        assert_eq!(counted(&pair, 8, &short), both);
        assert_eq!(counted(&[(900, 7, 5), (900, 7, 5)], 24, &short), named(&[]));
        assert_eq!(counted(&TOGETHER, 0, &short), ["both refused 12"]);
        let name = |at: usize| format!("outputs of both {}", ROOMS[at]);
        assert_eq!(
            counted(&pair, 7, &short),
            [name(2), "both refused 12".into()]
        );
        assert_eq!(counted(&pair, 40, &short), [name(1)]);
        assert_eq!(counted(&pair, 39, &short), [name(1), name(3)]);
    }

    /// Catches costs of another order, by hand: 805.000 against 700.000 of the one sort, nothing
    /// against 175.000 of the other.
    #[test]
    fn books_count_by_their_costs() {
        let dearer = format!("books netted and offset {}", COSTS[1]);
        let cheaper = format!("books netted and offset {}", COSTS[0]);
        let refused = "both refused 12".to_string();
        let table = second::table();
        assert_eq!(counted(&SHARED, 0, &table), [dearer, refused.clone()]);
        assert_eq!(counted(&TOGETHER, 0, &table), [cheaper, refused]);
    }

    /// Catches a refusal that counts as hidden where the other order has it too.
    #[test]
    fn hidden_refusals_are_told_apart() {
        let most = 1_000_000_000;
        let count = |legs: &[(u16, u16, i64)]| counted(legs, 100, &[0; 35]);
        let hidden = |number| format!("both refused {number}, hidden in the other order");
        let thirteen = [(900, 7, 5), (910, 0, -5), (905, 7, 4)];
        assert_eq!(count(&thirteen), [hidden(13), "both refused 13".into()]);
        assert_eq!(count(&[thirteen[0], thirteen[2]]), ["both refused 13"]);
        let fourteen = [(900, 7, most), (900, 7, most), (910, 0, -most)];
        assert_eq!(count(&fourteen), [hidden(14), "both refused 14".into()]);
        assert_eq!(count(&fourteen[..2]), ["both refused 14"]);
        assert_eq!(count(&[(36_001, 0, 5)]), ["both refused 6"]);
    }
}
