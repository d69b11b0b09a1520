//! Answers as text: figures by hand.

use market_risk::{CommodityLadder, InterestLadder, Options, Report, SmallBank};

/// A result of so many entries whose figures are 1,234,567,001, 1,234,567,002 and so on: all are distinct, and
/// every separator and place shows.
fn entries<const N: usize>() -> [u64; N] {
    std::array::from_fn(|at| match at {
        0..3 => 0,
        _ => 1_234_566_998 + at as u64,
    })
}

/// Catches a charge under another's name, left out, in other units or without its mils.
#[test]
fn reports() {
    let lines = [
        "interest specific  1,234,567.001",
        "interest general   1,234,567.002",
        "equity specific    1,234,567.003",
        "equity general     1,234,567.004",
        "foreign exchange   1,234,567.005",
        "commodity          1,234,567.006",
        "total              1,234,567.007",
    ];
    let report = Report::of(&entries()).unwrap();
    assert_eq!(report.to_string(), lines.join("\n"));
    let nothing = Report::default().to_string();
    let zeros = nothing.lines().all(|line| line.ends_with("  0.000"));
    assert!(zeros, "{nothing}");
}

/// The three charges alone.
#[test]
fn small_banks() {
    let lines = [
        "foreign exchange  1,234,567.001",
        "commodity         1,234,567.002",
        "total             1,234,567.003",
    ];
    let charged = SmallBank::of(&entries()).unwrap();
    assert_eq!(charged.to_string(), lines.join("\n"));
}

/// Catches a match under another's name, and a weighted position that is shown as mils or as amounts.
#[test]
fn interest_ladders() {
    let lines = [
        "gross          123,456,700.1",
        "within bands   123,456,700.2",
        "within zone 1  123,456,700.3",
        "within zone 2  123,456,700.4",
        "within zone 3  123,456,700.5",
        "zones 1 and 2  123,456,700.6",
        "zones 2 and 3  123,456,700.7",
        "zones 1 and 3  123,456,700.8",
        "residual       123,456,700.9",
        "charge         1,234,567.010",
    ];
    let ladder = InterestLadder::of(&entries()).unwrap();
    assert_eq!(ladder.to_string(), lines.join("\n"));
}

/// Catches amounts that are shown in thousands, or wrap.
#[test]
fn commodity_ladders() {
    let lines = [
        "matches   1,234,567,001,000",
        "carried   1,234,567,002,000",
        "residual  1,234,567,003,000",
        "charge        1,234,567.004",
    ];
    let ladder = CommodityLadder::of(&entries()).unwrap();
    assert_eq!(ladder.to_string(), lines.join("\n"));
    let mut most = CommodityLadder::default();
    most.matches = u64::MAX;
    let most = most.to_string();
    assert!(most.contains(" 18,446,744,073,709,551,615,000\n"), "{most}");
}

/// Catches gamma and vega in each other's place, and a whole charge without one of the seven: it is seven times
/// 1,234,567.000, and the mils 1 to 6 and 13.
#[test]
fn options() {
    let lines = [
        "interest specific          1,234,567.007",
        "interest general           1,234,567.008",
        "equity specific            1,234,567.009",
        "equity general             1,234,567.010",
        "foreign exchange           1,234,567.011",
        "commodity                  1,234,567.012",
        "total                      1,234,567.013",
        "gamma of equity            1,234,567.001",
        "gamma of foreign exchange  1,234,567.002",
        "gamma of commodity         1,234,567.003",
        "vega of equity             1,234,567.004",
        "vega of foreign exchange   1,234,567.005",
        "vega of commodity          1,234,567.006",
        "whole                      8,641,969.034",
    ];
    // The first figure of the result is the length of the book.
    let mut entries = entries::<17>();
    entries[3..].iter_mut().for_each(|entry| *entry -= 1);
    let priced = Options::of(&entries).unwrap();
    assert_eq!(priced.to_string(), lines.join("\n"));
}
