//! Answers that are changed, each of which must be told.

use super::*;
use crate::load::option_table;
use crate::options::ask::{of_table, of_underlyings};
use books::options::decode;
use market_risk::Options;

/// Two shares of one market, an index of another, a currency, and C.4's commodity.
const TEXT: &str = "class,group,right,kind,amount,delta,gamma,vega,volatility,days
equity,3,sold call,ordinary,1000,5000,10,1,2000,0
equity,3,bought call,ordinary,100,5000,10,2,1000,0
equity,7,sold put,index,2000,2500,5,1,1000,0
fx,5,bought put,none,400,5000,1,1,0100,0
commodity,4,sold call,none,25000,7210,170,84,2000,1081
";

/// The library's answers, which can be so.
fn right() -> (Vec<OptionRow>, Answer, Vec<Alone>) {
    let given = option_table(TEXT).unwrap();
    let options = decode(&given.bytes).unwrap();
    let (answer, groups) = (of_table(&given), of_underlyings(&options));
    (options, answer.unwrap(), groups.unwrap())
}

/// What is told after a change of the answers.
fn told(change: impl Fn(&mut Answer, &mut Vec<Alone>)) -> Vec<String> {
    let (options, mut answer, mut groups) = right();
    change(&mut answer, &mut groups);
    let told = hold(&options, &answer, &groups).unwrap_err();
    told.lines().map(String::from).collect()
}

/// What is told first after a change of the book.
fn of_book(change: impl Fn(&mut Book)) -> String {
    let change = |answer: &mut Answer, _: &mut Vec<Alone>| {
        let mut book = Book::decode(&answer.file).unwrap();
        change(&mut book);
        answer.file = book.encode().unwrap();
        answer.told.length = answer.file.len();
    };
    told(change).remove(0)
}

/// By hand: short 500, long 50 and long 500 of equity, at 8%, 8% and 2%, and 8% of the nets of 450
/// and 500; short 200 of fx, 8%; short 18,025 of the commodity, 15%.
#[test]
fn right_answers_are_not_doubted() {
    let (options, answer, groups) = right();
    let report = hold(&options, &answer, &groups).unwrap();
    assert_eq!(report.equity_specific, 44_000_000 + 10_000_000);
    assert_eq!(report.equity_general, 76_000_000);
    assert_eq!(report.exchange, 16_000_000);
    assert_eq!(report.commodity, 2_703_750_000);
    assert_eq!(report.taken, 5);
}

/// Catches a book that is not looked at: a side, an amount, an order, a class.
#[test]
fn other_rows_are_told() {
    let row = |long: u32, short: u32| {
        let row = "equity row: group 3, kind ordinary, days 0, coupon 0, issue 0";
        format!("{row}, long {long}, short {short}")
    };
    let first = |library: String| {
        let own = row(0, 500);
        format!("written, equity row 0 is by the library {library}, by the options {own}")
    };
    let side = of_book(|book| book.classes[1][0] = book.classes[1][0].mirrored());
    assert_eq!(side, first(row(500, 0)));
    assert_eq!(
        of_book(|book| book.classes[1][0].short = 499),
        first(row(0, 499))
    );
    assert_eq!(
        of_book(|book| book.classes[1].swap(0, 1)),
        first(row(50, 0))
    );
    let moved = |book: &mut Book| {
        let row = book.classes[2].remove(0);
        book.classes[3].push(row);
    };
    assert_eq!(
        of_book(moved),
        "fx has 1 rows written, the library's book 0"
    );
    let paper = of_book(|book| book.classes[0] = book.classes[2].clone());
    assert_eq!(paper, "interest has 0 rows written, the library's book 1");
}

#[test]
fn another_length_and_no_book_are_told() {
    let length = told(|answer, _| answer.told.length -= 16);
    assert_eq!(length, ["the library tells of 72 bytes, by the options 88"]);
    let counts = told(|answer, _| answer.file[2] = 4);
    assert_eq!(counts[0], "the library's book has other counts than rows");
    assert!(counts[1].starts_with("the library's book is refused 3: "));
    assert_eq!(counts.len(), 2);
}

/// By hand: market 3 sells 900 x 10 x 64 / 2 more than it buys and its vegas meet; market 7
/// sells 2,000 x 5 x 64 / 2, and 1,000 x 2,500 of vega. Catches a figure that is not looked at.
#[test]
fn other_gammas_and_vegas_are_told() {
    let of = |name: &str, library: &str, own: &str| {
        let line = |by: &str| format!("{name} is by the library {library}, by {by} {own}");
        ["the options", "its underlyings alone"].map(line)
    };
    let gamma = told(|answer, _| answer.told.gamma.equity += 1);
    assert_eq!(gamma, of("equity gamma", "608.001", "608.000"));
    let vega = told(|answer, _| answer.told.vega.equity = 0);
    assert_eq!(vega, of("equity vega", "0.000", "2,500.000"));
    let gamma = told(|answer, _| answer.told.gamma.exchange = 12_800);
    assert_eq!(gamma, of("fx gamma", "12.800", "0.000"));
    let vega = told(|answer, _| answer.told.vega.exchange -= 1);
    assert_eq!(vega, of("fx vega", "249.999", "250.000"));
    let exchanged = told(|answer, _| {
        let Options { gamma, vega, .. } = &mut answer.told;
        std::mem::swap(&mut gamma.commodity, &mut vega.commodity);
    });
    let [[gamma, gammas], [vega, vegas]] = [
        of("commodity gamma", "420,000.000", "478,125.000"),
        of("commodity vega", "478,125.000", "420,000.000"),
    ];
    assert_eq!(exchanged, [gamma, vega, gammas, vegas]);
}

/// Catches an underlying that is not looked at by itself: what two have wrong may add up.
#[test]
fn other_figures_of_an_underlying_are_told() {
    let both = told(|_, groups| {
        groups[0].1.told.gamma.equity -= 8_000;
        groups[1].1.told.gamma.equity += 8_000;
    });
    let alone = |group: u8, library: &str, own: &str| {
        let name = format!("of equity {group} alone, equity gamma");
        format!("{name} is by the library {library}, by its options {own}")
    };
    let expected = [
        alone(3, "280.000", "288.000"),
        alone(7, "328.000", "320.000"),
    ];
    assert_eq!(both, expected);
    let stray = told(|_, groups| groups[3].1.told.vega.exchange = 7);
    let expected = [
        "of commodity 4 alone, fx vega is by the library 0.007, by its options 0.000",
        "fx vega is by the library 250.000, by its underlyings alone 250.007",
    ];
    assert_eq!(stray, expected);
}

/// Catches a charge that is taken as it is told, and a total that is not the sum.
#[test]
fn other_charges_are_told() {
    let charge = told(|answer, _| answer.told.exchange = 0);
    let why = "foreign exchange is by the library 0.000, by its charge of the book 16,000.000";
    assert_eq!(charge, [why]);
    let total = told(|answer, _| answer.told.total += 478_125_000);
    let why = "total is by the library 3,327,875.000, by its charge of the book 2,849,750.000";
    assert_eq!(total, [why]);
    let interest = told(|answer, _| answer.told.interest_general = 1);
    assert!(interest[0].starts_with("interest general is by the library 0.001, "));
    let (_, answer, _) = right();
    let mut wrong = market_risk::charge(&answer.file, &Table::amendment()).unwrap();
    wrong.taken = 4;
    let why = "the file has 5 rows, the library took 4";
    assert_eq!(charges(&answer, &wrong), [why]);
}
