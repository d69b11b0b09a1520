//! Options by delta-plus, over the linked library: the rows, gamma and vega by hand.

use market_risk::{charge, options_book, ByClass, Options, Table};

/// An option: class, group, right, kind; amount; delta, gamma, vega, volatility, days.
type Fields = ([u8; 4], u32, [u16; 5]);

/// The bytes of a table.
fn table(options: &[Fields]) -> Vec<u8> {
    let mut bytes = (options.len() as u16).to_le_bytes().to_vec();
    for (sort, amount, short) in options {
        bytes.extend(sort);
        bytes.extend(amount.to_le_bytes());
        bytes.extend(short.iter().flat_map(|field| field.to_le_bytes()));
    }
    bytes
}

/// The book of a table, which must cost what is told of it, and the answer.
fn priced(options: &[Fields]) -> (Vec<u8>, Options) {
    let (book, priced) = options_book(&table(options)).unwrap();
    let report = charge(&book, &Table::amendment()).unwrap();
    let told = [priced.equity_specific, priced.equity_general];
    assert_eq!(told, [report.equity_specific, report.equity_general]);
    let told = [priced.exchange, priced.commodity, priced.total];
    assert_eq!(told, [report.exchange, report.commodity, report.total]);
    assert_eq!(priced.length, book.len());
    (book, priced)
}

/// The amounts of a book's rows, long above zero and short below.
fn nets(book: &[u8]) -> Vec<i64> {
    let four = |bytes: &[u8]| i64::from(u32::from_le_bytes(bytes.try_into().unwrap()));
    let rows = book[8..].chunks_exact(16);
    rows.map(|row| four(&row[8..12]) - four(&row[12..]))
        .collect()
}

/// The gamma and the vega of a table, by class.
fn greeks(options: &[Fields]) -> ([u64; 3], [u64; 3]) {
    let of = |greek: ByClass| [greek.equity, greek.exchange, greek.commodity];
    let (_, priced) = priced(options);
    (of(priced.gamma), of(priced.vega))
}

/// C.4 of the Amendment, 50 times: a sold call on a commodity.
const SOLD: Fields = ([4, 5, 2, 0], 25_000, [7_210, 170, 84, 2_000, 1_081]);

#[test]
fn the_amendments_option() {
    let (book, priced) = priced(&[SOLD]);
    let row = [5, 0, 0x39, 0x04, 0, 0, 0, 0, 0, 0, 0, 0, 0x69, 0x46, 0, 0];
    assert_eq!(book, [&[0, 0, 0, 0, 0, 0, 1, 0][..], &row].concat());
    assert_eq!(nets(&book), [-18_025]);
    assert_eq!(priced.total, 2_703_750_000);
    assert_eq!(greeks(&[SOLD]), ([0, 0, 478_125_000], [0, 0, 420_000_000]));
    // In a nearer band it is carried three steps, at 0.6% each.
    let mut nearer = SOLD;
    nearer.2[4] = 360;
    let (_, nearer) = self::priced(&[nearer]);
    assert_eq!(nearer.total, 2_703_750_000 + 324_450_000);
    assert_eq!([nearer.gamma, nearer.vega], [priced.gamma, priced.vega]);
}

/// Catches the sides of calls and puts exchanged, signs by call and put, and another move of a class.
#[test]
fn each_right_in_each_class() {
    let sides = [5, -5, -5, 5];
    for (class, kind, gamma) in [(2, 1, 640), (3, 0, 640), (4, 0, 2_250)] {
        let place = usize::from(class) - 2;
        for right in 0..4 {
            let option = ([class, 7, right, kind], 10, [5_000, 2, 3, 4, 0]);
            let (book, _) = priced(&[option]);
            assert_eq!(nets(&book), [sides[usize::from(right)]]);
            let mut expected = ([0; 3], [0; 3]);
            expected.0[place] = if right < 2 { 0 } else { gamma };
            expected.1[place] = 30_000;
            assert_eq!(greeks(&[option]), expected, "{class} {right}");
        }
    }
}

#[test]
fn amounts_are_rounded_up() {
    for (amount, delta, net) in [
        (1, 1, 1),
        (1, 9_999, 1),
        (1, 10_000, 1),
        (3, 5_000, 2),
        (20, 5_000, 10),
        (10_000, 1, 1),
        (10_001, 1, 2),
        (999_999, 9_999, 999_900),
        (1_000_000, 1, 100),
        (1_000_000, 9_999, 999_900),
        (1_000_000, 10_000, 1_000_000),
    ] {
        let (book, _) = priced(&[([3, 0, 0, 0], amount, [delta, 0, 0, 0, 0])]);
        assert_eq!(nets(&book), [net], "{amount} {delta}");
    }
}

/// A bought or sold option on a commodity without delta, of amount 1: half of 225 for each unit of gamma.
fn without_delta(group: u8, right: u8, gamma: u16, vega: u16, volatility: u16) -> Fields {
    ([4, group, right, 0], 1, [0, gamma, vega, volatility, 0])
}

/// Catches gamma that is rounded for each option or once for the class, bought sums that are charged or set
/// against other groups, and options that are left out since they have no delta.
#[test]
fn gamma_is_rounded_once_for_each_group() {
    let gamma = |options: &[(u8, u8, u16)]| {
        let options: Vec<Fields> = options
            .iter()
            .map(|(group, right, gamma)| without_delta(*group, *right, *gamma, 0, 0))
            .collect();
        assert_eq!(priced(&options).0, [0; 8]);
        greeks(&options).0[2]
    };
    assert_eq!(gamma(&[(3, 2, 1)]), 113);
    assert_eq!(gamma(&[(3, 2, 1), (3, 3, 1)]), 225);
    assert_eq!(gamma(&[(3, 2, 1), (4, 2, 1)]), 226);
    assert_eq!(gamma(&[(3, 2, 2), (3, 0, 1)]), 113);
    assert_eq!(gamma(&[(3, 0, 2), (3, 2, 1)]), 0);
    assert_eq!(gamma(&[(3, 0, 9), (4, 2, 1)]), 113);
    assert_eq!(gamma(&[(31, 1, 1), (0, 3, 3), (31, 3, 1)]), 338);
    assert_eq!(gamma(&[(0, 2, 65_535)]), 7_372_688);
    // Bought ones of another class do not count.
    let share = ([2, 3, 0, 1], 1, [0, 9, 0, 0, 0]);
    let both = [share, without_delta(3, 2, 1, 0, 0)];
    assert_eq!(greeks(&both).0, [0, 0, 113]);
}

/// Catches vega that is charged on one sign alone, without its volatility, or over all groups.
#[test]
fn vega_is_the_absolute_sum_of_each_group() {
    let vega = |options: &[(u8, u8, u16, u16)]| {
        let option = |(group, right, vega, volatility): &(u8, u8, u16, u16)| {
            without_delta(*group, *right, 0, *vega, *volatility)
        };
        greeks(&options.iter().map(option).collect::<Vec<Fields>>()).1[2]
    };
    assert_eq!(vega(&[(3, 0, 5, 7), (3, 2, 3, 7)]), 14 * 2_500);
    assert_eq!(vega(&[(3, 1, 3, 7), (3, 3, 5, 7)]), 14 * 2_500);
    assert_eq!(vega(&[(3, 0, 5, 7), (3, 2, 7, 5)]), 0);
    assert_eq!(vega(&[(3, 0, 5, 7), (4, 2, 3, 7)]), 56 * 2_500);
    assert_eq!(vega(&[(0, 3, 65_535, 65_535)]), 10_737_090_562_500);
}
