//! Netting: the same bond long and short, places, numbers, classes and limits, outputs around the
//! netted length, books of 4,000 rows, and random books.

use super::build::{around, book, clean, net, only, row, Case};
use super::worked;
use books::generate::Shape;
use books::issues::{spoil, Issues};
use books::{Random, Row};

/// How many random books there are.
pub const BOOKS: u64 = 60;

/// The most that a row, and an issue, may be.
pub const MOST: i64 = 1_000_000_000;

/// A bond of 1,080 days, of an issue.
pub fn bond(issue: u16, amount: i64) -> Row {
    row(7, 1, 1080, 800, amount).with_issue(issue)
}

/// A book of such bonds.
fn bonds(nets: &[(u16, i64)]) -> Vec<u8> {
    let rows: Vec<Row> = nets.iter().map(|(issue, net)| bond(*issue, *net)).collect();
    only(0, &rows)
}

/// The worked books: the same bond long 100 and short 40, the other way, twice on one side; E4 with
/// its rows of 900 days as one issue, and its two books.
fn worked_books() -> Vec<Vec<u8>> {
    let dated = |days: u16, issue: u16, net: i64| bond(issue, net).with_days(days);
    let a = [dated(270, 0, 75), dated(900, 5, -30)];
    let b = [dated(900, 5, 30), dated(6000, 0, -10)];
    let mut books = worked::examples();
    books.extend([
        bonds(&[(5, 100), (5, -40)]),
        bonds(&[(5, 40), (5, -100)]),
        bonds(&[(5, 40), (5, 100)]),
        only(0, &a),
        only(0, &b),
        only(0, &[a, b].concat()),
    ]);
    books
}

/// Places of the first rows, numbers that differ in one byte, number 0, and nets of zero.
fn places() -> Vec<Vec<u8>> {
    vec![
        bonds(&[(7, 1), (5, 100), (0, 3), (7, 2), (6, 9), (5, -40), (7, 4)]),
        bonds(&[
            (1, 5),
            (256, 5),
            (257, 5),
            (65_535, 5),
            (1, -9),
            (65_535, 1),
        ]),
        bonds(&[(0, 9), (0, -9), (0, 9)]),
        bonds(&[(5, 3), (5, -3)]),
        bonds(&[(5, 3), (6, 1), (5, -1), (5, -2)]),
        bonds(&[(5, 3), (5, -3), (5, 8)]),
        only(0, &[bond(0, 4), bond(0, -4).with_days(90)]),
    ]
}

/// One number in several classes, which nets to zero in some of them.
fn classes() -> Vec<Vec<u8>> {
    let pair = |class: usize, less: i64| {
        let row = clean(class).with_issue(9).with_sides(5, 0);
        let short = u32::try_from(5 - less).expect("no amount below zero");
        [row, row.with_sides(0, short)]
    };
    (0..16)
        .map(|mix: usize| {
            let bodies = [0, 1, 2, 3].map(|class| pair(class, (mix >> class & 1) as i64 * 2));
            book(bodies.each_ref().map(|body| &body[..]))
        })
        .collect()
}

/// Nets at the limit, and sums that pass it and come back, on either side.
fn limits() -> Vec<Vec<u8>> {
    let mut books = Vec::new();
    for side in [1, -1] {
        for nets in [
            vec![MOST - 1, 1],
            vec![MOST, 1, -1],
            vec![MOST, MOST, -MOST],
            vec![
                MOST,
                MOST,
                MOST,
                MOST,
                294_967_296,
                -MOST,
                -MOST,
                -MOST,
                -MOST,
            ],
            vec![1, -MOST, -MOST, MOST],
        ] {
            let nets: Vec<(u16, i64)> = nets.iter().map(|net| (5, side * net)).collect();
            books.push(bonds(&nets));
        }
    }
    books
}

/// A floating-rate note long and short, and beside a bond of another number.
fn notes() -> Vec<u8> {
    let note = |net: i64| row(7, 4, 90, 2_880, net).with_issue(4);
    only(0, &[note(10), bond(5, 1), note(-3), bond(5, 1)])
}

/// Books of 4,000 rows: of one issue, of 60, of as many as rows in runs that store small, of all
/// classes with each number in each.
fn full_books() -> Vec<Vec<u8>> {
    let one = |count: usize, net: i64| vec![(5, net); count];
    let sixty: Vec<(u16, i64)> = (0..4_000)
        .map(|at| (1 + at / 66, 3 - i64::from(at / 66 % 2) * 5))
        .collect();
    let quarter = |class: usize| -> Vec<Row> {
        let model = clean(class);
        (0..1_000)
            .map(|at| model.with_issue(1 + at / 125 % 4))
            .collect()
    };
    let all = [0, 1, 2, 3].map(quarter);
    vec![
        bonds(&[one(2_000, MOST), one(2_000, -MOST)].concat()),
        bonds(&[one(2_001, MOST), one(1_999, -MOST)].concat()),
        bonds(&[one(2_000, 7), one(1_999, -7), vec![(6, 1)]].concat()),
        bonds(&sixty),
        book(all.each_ref().map(|body| &body[..])),
    ]
}

/// As many issues as rows.
fn many_issues() -> Vec<u8> {
    let rows: Vec<(u16, i64)> = (1..=200)
        .map(|issue| (300 * issue, i64::from(issue)))
        .collect();
    bonds(&[&rows[..], &rows].concat())
}

/// Random books of a seed: every third with a row that is unlike its issue.
fn random(seed: u64) -> Vec<Vec<u8>> {
    let random_book = |number: u64| {
        let mut random = Random::of_case(seed, 4_000 + number);
        let shape = Shape::new(&mut random, 0);
        let rows = 1 + random.below(14) as usize;
        let mut book = Issues::new(&mut random, &shape).book(&mut random, rows);
        if random.once_in(3) {
            spoil(&mut random, &mut book);
        }
        book.encode().expect("few rows")
    };
    (0..BOOKS).map(random_book).collect()
}

/// A book netted into an output of every length that matters.
fn rooms(book: &[u8]) -> Vec<Case> {
    let netted = second::netted(book).map_or(book.len(), |netted| netted.len());
    around(book, netted, net)
}

/// All of them: the shortest with outputs of many lengths, the others with one.
pub fn cases(seed: u64) -> Vec<Case> {
    let short = [worked_books(), places(), vec![notes(), vec![0; 8]]];
    let mut cases: Vec<Case> = short.concat().iter().flat_map(|book| rooms(book)).collect();
    let others = [classes(), limits(), random(seed)].concat();
    cases.extend(others.iter().map(|book| net(book, book.len() + 5)));
    for book in full_books() {
        cases.extend([65_536, 8].map(|room| net(&book, room)));
    }
    cases.push(net(&many_issues(), 65_536));
    cases
}

#[cfg(test)]
mod tests {
    use super::super::answers::lines;
    use super::*;

    /// The numbers, rows and lengths of some books; their comparisons come next.
    fn answers(books: &[Vec<u8>]) -> Vec<[u64; 3]> {
        let cases: Vec<Case> = books.iter().map(|book| net(book, 65_536)).collect();
        let lines = lines(&cases);
        let figures = lines.lines().map(|line| {
            let figures: Vec<u64> = line
                .split(' ')
                .skip(1)
                .map(|figure| figure.parse().unwrap())
                .collect();
            [figures[0], figures[1], figures[3]]
        });
        figures.collect()
    }

    /// Catches books that are not what they are stored for, by lengths worked by hand.
    #[test]
    fn lengths_by_hand() {
        let rows = |books: &[Vec<u8>]| -> Vec<u64> {
            let answers = answers(books).into_iter();
            answers
                .map(|[number, row, length]| {
                    assert_eq!([number, row], [0, 0]);
                    (length - 8) / 16
                })
                .collect()
        };
        assert_eq!(rows(&worked_books())[7..], [1, 1, 1, 2, 2, 2]);
        assert_eq!(rows(&places()), [4, 4, 3, 0, 1, 1, 2]);
        assert_eq!(rows(&classes())[..4], [0, 1, 1, 2]);
        assert_eq!(rows(&classes())[15], 4);
        assert_eq!(rows(&limits()), [1; 10]);
        assert_eq!(rows(&[notes(), many_issues()]), [2, 200]);
    }

    /// 4,000 rows that net to nothing, to 2 × 10^9, to two rows, to 61, and to 16.
    #[test]
    fn full_books_by_hand() {
        let expected = [
            [0, 0, 8],
            [14, 0, 0],
            [0, 0, 40],
            [0, 0, 8 + 61 * 16],
            [0, 0, 8 + 16 * 16],
        ];
        assert_eq!(answers(&full_books()), expected);
        assert!(full_books().iter().all(|book| book.len() == 64_008));
    }

    /// Catches random books that are all netted or all refused.
    #[test]
    fn random_books_are_netted_and_refused() {
        let answers = answers(&random(1));
        let count = |number: u64| answers.iter().filter(|answer| answer[0] == number).count();
        assert!(
            count(0) > 20 && count(13) > 3 && count(14) > 3,
            "{answers:?}"
        );
        let shorter = random(1)
            .iter()
            .zip(&answers)
            .filter(|(book, [_, _, length])| *length > 0 && *length < book.len() as u64)
            .count();
        assert!(shorter > 15, "{shorter}");
    }
}
