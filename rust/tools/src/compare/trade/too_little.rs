//! What is counted of trades, by hand, and runs that have seen trades of one sort alone: each must fail, and
//! tell what it lacks.

use super::super::case::Case;
use super::super::stand_ins;
use super::wrong::alone;
use super::{Seen, Trade, LEAST};
use books::{Book, Row};

/// What a run of 4,000 cases has not seen of trades at all.
fn lacking(cases: fn(u64, u64) -> Case) -> Vec<String> {
    let (mut lacking, names) = (stand_ins::lacking(cases), LEAST.named());
    lacking.retain(|line| {
        let about = |(name, _): &(String, u64)| line.starts_with(&format!("{name}: 0 where"));
        names.iter().any(about)
    });
    lacking
}

/// How many lines begin so.
fn count(lines: &[String], begins: &str) -> usize {
    lines.iter().filter(|line| line.starts_with(begins)).count()
}

/// Catches a run in which no trade is needed.
#[test]
fn a_run_without_trades_fails() {
    let lacking = lacking(|seed, number| Case {
        trade: Trade::default(),
        ..alone(seed, number)
    });
    assert!(count(&lacking, "least trades of none") == 1, "{lacking:?}");
    assert!(count(&lacking, "trades ") >= 7, "{lacking:?}");
    assert!(
        count(&lacking, "least trades refused 10") >= 3,
        "{lacking:?}"
    );
    assert!(
        count(&lacking, "least trades refused 21 ") >= 3,
        "{lacking:?}"
    );
}

/// Catches a run in which every band and side is taken.
#[test]
fn a_run_without_21_fails() {
    let lacking = lacking(|seed, number| {
        let mut case = alone(seed, number);
        case.trade.band %= 15;
        case.trade.side %= 2;
        case
    });
    let refused = count(&lacking, "least trades refused ");
    assert_eq!(refused, lacking.len(), "{lacking:?}");
    assert!(
        count(&lacking, "least trades refused 21 ") >= 3,
        "{lacking:?}"
    );
    assert_eq!(count(&lacking, "least trades refused 18 or 19 before"), 1);
    assert_eq!(
        count(&lacking, "least trades refused 10 before a bad band"),
        1
    );
}

/// Catches a run in which every trade is on one side.
#[test]
fn a_run_of_longs_fails() {
    let lacking = lacking(|seed, number| {
        let mut case = alone(seed, number);
        case.trade.side = case.trade.side / 2 * 2;
        case
    });
    assert_eq!(lacking.len(), 1, "{lacking:?}");
    assert_eq!(count(&lacking, "trades short: "), 1);
}

/// The names of what is counted of a book with 100 long at 90 days in currency 7, under document 01's table.
fn seen(group: usize, band: usize, side: usize, limit: u64) -> String {
    let row = Row::default().with_group(7).with_kind(1).with_days(90);
    let mut book = Book::default();
    book.classes[0] = vec![row.with_coupon(800).with_sides(100, 0)];
    let trade = Trade {
        group,
        band,
        side,
        limit,
        ..Trade::default()
    };
    let mut seen = Seen::default();
    seen.count(&Case {
        a: book.encode().unwrap(),
        table: second::table().to_vec(),
        trade,
        ..alone(1, 1)
    });
    let names = seen.named().into_iter().filter(|(_, count)| *count > 0);
    let names: Vec<String> = names.map(|(name, _)| name).collect();
    names.join("; ")
}

/// Catches a trade that is counted for another sort. 100 at weight 20 cost 200,000 mils, and each unit on the
/// other side takes 1,800 off.
#[test]
fn trades_count_by_what_is_found() {
    assert_eq!(seen(7, 1, 1, 200_000), "least trades of 0");
    let one = "least trades of 1 to 999; trades short; trades in zone 1";
    assert_eq!(seen(7, 1, 1, 199_999), one);
    let just = format!("{one}; trades that just reach the limit");
    assert_eq!(seen(7, 1, 1, 198_200), just);
    assert_eq!(seen(7, 1, 0, 199_999), "least trades of none");
    let vain = "least trades of none; trades of weight 0 that are in vain";
    assert_eq!(seen(7, 0, 1, 5), vain);
    let unneeded = "least trades of 0; trades of weight 0 that are not needed";
    assert_eq!(seen(7, 0, 1, 200_000), unneeded);
}

/// Catches a reason that is told for another.
#[test]
fn refused_trades_count_by_their_reason() {
    assert_eq!(seen(32, 0, 0, 0), "least trades refused 10");
    let behind = "least trades refused 10; least trades refused 10 before a bad band or side";
    assert_eq!(seen(32, 15, 0, 0), behind);
    assert_eq!(seen(7, 15, 1, 0), "least trades refused 21 for the band");
    assert_eq!(seen(7, 14, 2, 0), "least trades refused 21 for the side");
    assert_eq!(seen(7, 15, 2, 0), "least trades refused 21 for both");
}
