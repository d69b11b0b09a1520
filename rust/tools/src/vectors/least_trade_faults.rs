//! Least trades that are refused: groups, tables, bands, sides and books, each alone and with faults of those that are
//! tried after it.

use super::build::{clean, only, row, Case};
use super::faults::bad_rows;
use super::least_trade_build::Place;
use super::tables::bad_books;
use books::Row;

/// Groups, bands and sides that there are not. Some are right by their low byte.
const GROUPS: [u16; 3] = [32, 256, 65_535];
const BANDS: [u16; 4] = [15, 255, 270, 65_535];
const SIDES: [u16; 4] = [2, 255, 256, 65_535];

/// A limit that the book of E3 is not within as it stands.
const LIMIT: u64 = 700_000;

/// E3 in currency 7, and shorts of band 5, of which 4 are the least for the limit.
fn good() -> Place {
    let rows = [(270, 75), (900, -30), (6_000, 10)];
    let rows = rows.map(|(days, net)| row(7, 1, days, 800, net));
    Place::new(&only(0, &rows), 7, 5, 1)
}

/// Document 01's table without its last byte, with one more, and none at all.
fn wrong_lengths() -> [Vec<u8>; 3] {
    let table = second::table();
    [table[..35].to_vec(), [&table[..], &[0]].concat(), vec![]]
}

/// Document 01's table with the first weight above the second, 2,001 in the last band, vertical above a zone, and 1-3
/// above 100.
fn broken() -> [Vec<u8>; 4] {
    [(0, 21), (28, 0xd1), (30, 31), (35, 101)].map(|(at, value)| {
        let mut table = second::table().to_vec();
        table[at] = value;
        if at == 28 {
            table[29] = 0x07;
        }
        table
    })
}

/// One fault alone: everything else is right.
fn alone() -> Vec<Case> {
    let mut places: Vec<Place> = GROUPS.map(|group| Place { group, ..good() }).to_vec();
    let tables = wrong_lengths().into_iter().chain(broken());
    places.extend(tables.map(|table| good().by(&table)));
    places.extend(BANDS.map(|band| Place { band, ..good() }));
    places.extend(SIDES.map(|side| Place { side, ..good() }));
    places.push(Place {
        band: 15,
        side: 2,
        ..good()
    });
    places.iter().map(|place| place.case(LIMIT)).collect()
}

/// The last group, band and side, and one before each fault: none is refused.
fn beside() -> Vec<Case> {
    let places = [(31, 14, 1), (31, 14, 0), (0, 0, 0), (7, 14, 1)];
    let cases = places.map(|(group, band, side)| {
        Place {
            group,
            band,
            side,
            ..good()
        }
        .case(LIMIT)
    });
    cases.into_iter().chain([good().case(LIMIT)]).collect()
}

/// A place with a bad book behind all other faults, and with one fault after the other cured.
fn cured(book: &[u8], at: usize) -> [Place; 5] {
    let (lengths, broken) = (wrong_lengths(), broken());
    let (band, side) = match at % 2 {
        0 => (BANDS[at / 2 % 4], 1),
        _ => (14, SIDES[at / 2 % 4]),
    };
    let whole = Place {
        band,
        side,
        ..Place::new(book, 31, 14, 0)
    };
    let first = Place {
        group: GROUPS[at % 3],
        ..whole.by(&lengths[at % 3])
    };
    let book = Place {
        band: 14,
        side: 0,
        ..whole.clone()
    };
    [
        first,
        whole.by(&lengths[at % 3]),
        whole.by(&broken[at % 4]),
        whole,
        book,
    ]
}

/// Each bad book behind faults of everything that is tried before it, and alone.
fn in_order() -> Vec<Case> {
    let books = bad_books();
    let places = books.iter().enumerate();
    let places = places.flat_map(|(at, book)| cured(book, at));
    places.map(|place| place.case(0)).collect()
}

/// Books with a bad row, in each class in turn, after two rows of currency 1.
fn late_rows() -> Vec<Vec<u8>> {
    let mut books = Vec::new();
    for class in 0..4 {
        let bad = bad_rows(class);
        for bad in [bad[class], bad[4 + class], bad[9 + class]] {
            let mut bodies = [vec![clean(0); 2], vec![], vec![], vec![]];
            bodies[class].push(bad);
            books.push(super::build::book(
                bodies.each_ref().map(|body: &Vec<Row>| &body[..]),
            ));
        }
    }
    books
}

/// All of them.
pub fn cases() -> Vec<Case> {
    let late = late_rows();
    let late = late
        .iter()
        .map(|book| Place::new(book, 1, 4, 1).case(u64::MAX));
    let cases = [alone(), beside(), in_order()].concat();
    cases.into_iter().chain(late).collect()
}

#[cfg(test)]
mod tests {
    use super::super::least_trade_build::{amounts, answer};
    use super::*;

    /// The number and row of a call.
    fn refusal(case: &Case) -> [u64; 2] {
        let [number, row, ..] = answer(case);
        [number, row]
    }

    /// Catches calls that are refused for another reason than they are stored for.
    #[test]
    fn refusals_by_hand() {
        let numbers: Vec<u64> = alone().iter().map(|case| refusal(case)[0]).collect();
        let expected = [&[10; 3][..], &[18; 3], &[19; 4], &[21; 9]].concat();
        assert_eq!(numbers, expected);
        assert_eq!(amounts(&beside()), [0, 0, 0, 1, 4].map(Some));
    }

    /// Catches another order than 10; 18, 19; 21; the book.
    #[test]
    fn each_fault_comes_before_those_after_it() {
        let refused: Vec<[u64; 2]> = in_order().iter().map(refusal).collect();
        let books = bad_books();
        let of_book = [1, 2, 3, 4, 5, 6, 7, 8, 9, 15];
        assert_eq!(refused.len(), 5 * books.len());
        for ((refused, number), book) in refused.chunks(5).zip(of_book).zip(&books) {
            let row = second::check(book).row;
            assert_eq!(refused, [[10, 0], [18, 0], [19, 0], [21, 0], [number, row]]);
        }
    }

    /// Catches bad rows that are passed over since they are of another class, or since the limit is no limit.
    #[test]
    fn late_rows_and_their_places() {
        let refused: Vec<[u64; 2]> = late_rows()
            .iter()
            .map(|book| refusal(&Place::new(book, 1, 4, 1).case(u64::MAX)))
            .collect();
        let numbers = [4, 6, 8, 4, 6, 8, 5, 7, 9, 5, 7, 9];
        assert_eq!(refused, numbers.map(|number| [number, 2]));
    }
}
