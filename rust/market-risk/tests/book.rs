//! Books that are built row by row: bytes by hand, each refusal, the limit.

use market_risk::{check, Book, EquityKind, InterestKind, Position, Row, GOLD};
use market_risk::{MOST_BYTES, MOST_ROWS};

/// A commodity of group 5 at 30 days.
fn commodity(position: Position) -> Row {
    Row::Commodity {
        commodity: 5,
        days: 30,
        issue: 0,
        position,
    }
}

/// Accepted rows of all five sorts, added against the order of the file, byte by byte.
#[test]
fn accepted_rows_by_hand() {
    let (currency, issue) = (GOLD, 0);
    let position = Position::Short(0x0102_0304);
    let rows = [
        commodity(Position::Long(9)),
        Row::Exchange {
            currency,
            issue,
            position,
        },
        Row::Equity {
            market: 3,
            kind: EquityKind::Index,
            issue: 2,
            position,
        },
        Row::FloatingRateNote {
            currency: 7,
            fixing: 90,
            maturity: 0x0b40,
            issue,
            position,
        },
        Row::Interest {
            currency: 31,
            kind: InterestKind::Other,
            days: 0x0168,
            coupon: 0x0320,
            issue: 0xfffe,
            position: Position::Long(1),
        },
    ];
    let expected = [
        [2, 0, 1, 0, 1, 0, 1, 0].to_vec(),
        vec![7, 4, 90, 0, 0x40, 0x0b, 0, 0, 0, 0, 0, 0, 4, 3, 2, 1],
        vec![31, 3, 0x68, 1, 0x20, 3, 0xfe, 0xff, 1, 0, 0, 0, 0, 0, 0, 0],
        vec![3, 3, 0, 0, 0, 0, 2, 0, 0, 0, 0, 0, 4, 3, 2, 1],
        vec![0, 0, 0, 0, 0, 0, 0, 0, 0, 0, 0, 0, 4, 3, 2, 1],
        vec![5, 0, 30, 0, 0, 0, 0, 0, 9, 0, 0, 0, 0, 0, 0, 0],
    ];
    assert_eq!(Book::of(rows).unwrap().bytes(), Ok(&expected.concat()[..]));
    assert_eq!(Book::default().bytes(), Ok(&[0; 8][..]));
}

/// Catches a number or a row that is not the library's: each refusal that a row can have, but for 5, since every
/// kind here is of its class. The bad row is the second, of three that are added.
#[test]
fn each_refusal_of_a_row() {
    let position = Position::Long(1);
    let note = |currency, fixing, maturity| Row::FloatingRateNote {
        currency,
        fixing,
        maturity,
        issue: 0,
        position,
    };
    let bond = |currency, days, coupon| Row::Interest {
        currency,
        kind: InterestKind::Government,
        days,
        coupon,
        issue: 0,
        position,
    };
    let cases = [
        (4, bond(32, 0, 0)),
        (4, note(255, 0, 0)),
        (6, bond(7, 36_001, 0)),
        (7, bond(7, 0, 10_001)),
        (8, commodity(Position::Short(0))),
        (9, commodity(Position::Long(1_000_000_001))),
        (15, note(7, 361, 361)),
        (15, note(7, 90, 89)),
    ];
    for (number, bad) in cases {
        let book = Book::of([bond(7, 0, 0), bad, commodity(position)]).unwrap();
        let refusal = book.bytes().unwrap_err();
        assert_eq!((refusal.number, refusal.row), (number, 1), "{bad:?}");
    }
}

/// Catches a limit that is another, a refusal that is not the library's, and a row that is taken all the same.
#[test]
fn no_more_than_4_000_rows() {
    let one = commodity(Position::Long(1));
    let mut book = Book::of(std::iter::repeat_n(one, MOST_ROWS)).unwrap();
    assert_eq!(book.bytes().unwrap().len(), MOST_BYTES);
    let full = book.clone();
    let refusal = check(&[0, 0, 0, 0, 0, 0, 0xa1, 0x0f]).unwrap_err();
    assert_eq!(refusal.number, 2);
    let equity = Row::Equity {
        market: 3,
        kind: EquityKind::Ordinary,
        issue: 0,
        position: Position::Long(1),
    };
    for more in [one, equity] {
        assert_eq!(book.add(more), Err(refusal));
        assert_eq!(book, full);
    }
    assert_eq!(Book::of(std::iter::repeat(one)), Err(refusal));
}
