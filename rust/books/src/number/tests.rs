//! Numbers by hand: what is taken, and what is told of everything else.

use super::column::*;
use super::*;

/// What is told of a text in a column.
fn told_of(column: &Column, text: &str) -> String {
    let wrong = field::<u32>(column, text).unwrap_err();
    assert_eq!(wrong.column.as_deref(), Some(column.name));
    wrong.what
}

/// What is told of a long.
fn told(text: &str) -> String {
    told_of(&LONG, text)
}

#[test]
fn digits_alone_are_taken() {
    assert_eq!(field(&LONG, "4294967295"), Ok(u32::MAX));
    assert_eq!(field(&LONG, "0075"), Ok(75u32));
    assert_eq!(field(&DAYS, "7"), Ok(7u16));
    // Digits of another script are none.
    assert!(told("\u{663}").starts_with("long is '\u{663}', not a whole number; "));
}

/// Catches an empty field that is taken for 0 where it bears on a charge: its maturity would cost nothing.
#[test]
fn empty_fields_are_zero_only_where_nothing_else_is_accepted() {
    // Where the class is not known that is told, and no more.
    for column in [NO_DAYS, NO_COUPON, ISSUE, ANY_DAYS, ANY_COUPON] {
        assert_eq!(field(&column, ""), Ok(0u16));
    }
    let thousands = "write it in whole thousands of the reporting currency: a million is 1000";
    for (column, why) in [
        (DAYS, "write it in days: a month is 30, a year 360"),
        (FIXING, "write it in days: a month is 30, a year 360"),
        (FINAL, "write it in days: a month is 30, a year 360"),
        (
            DELIVERY,
            "write it in days: a month is 30, a year 360; 0 for stock",
        ),
        (
            COUPON,
            "write it in basis points: 8% is 800; 0 where there is none",
        ),
        (LONG, &format!("{thousands}; 0 where there is none")),
        (SHORT, &format!("{thousands}; 0 where there is none")),
        (AMOUNT, thousands),
        (GROUP, "write a whole number of 0 to 31"),
        (DELTA, "write it in ten-thousandths: 0.5 is 5000"),
        (GAMMA, "write it in ten-thousandths: 0.5 is 5000"),
        (VOLATILITY, "write it in hundredths of a point: 20% is 2000"),
        (
            VEGA,
            "write it in whole thousands of the reporting currency for a point of volatility",
        ),
    ] {
        let name = [column.name, column.holds].concat();
        assert_eq!(told_of(&column, ""), format!("{name} is empty; {why}"));
    }
}

/// Catches a limit that is told without the number that broke it.
#[test]
fn numbers_too_large_are_told_with_what_they_may_be() {
    let most = "long is '4294967296', and may be 0 to 1,000,000,000";
    assert_eq!(told("4294967296"), most);
    assert!(told("99999999999999999999999").ends_with("may be 0 to 1,000,000,000"));
    let group = field::<u8>(&GROUP, "256").unwrap_err().what;
    assert_eq!(group, "group is '256', and may be 0 to 31");
    let issue = field::<u16>(&ISSUE, "65536").unwrap_err().what;
    assert_eq!(issue, "issue is '65536', and may be 0 to 65,535");
    for (column, most) in [(COUPON, "10,000"), (FINAL, "36,000"), (DELIVERY, "36,000")] {
        let told = field::<u16>(&column, "65536").unwrap_err().what;
        assert!(
            told.ends_with(&format!(", and may be 0 to {most}")),
            "{told}"
        );
    }
}

/// Catches a row without its last field that 1,000 fills up: long 1 and short 000.
#[test]
fn zero_is_written_once() {
    let why = "is there a thousands separator before it? write 0 if that is meant";
    for text in ["00", "000"] {
        assert_eq!(told(text), format!("long is '{text}': {why}"));
    }
    let why = "is there a thousands separator before it? write 80 if that is meant";
    assert_eq!(told("080"), format!("long is '080': {why}"));
    assert_eq!(field(&LONG, "0"), Ok(0u32));
    let many = told(&"0".repeat(1_000));
    assert!(
        many.starts_with(&format!("long is '{}...': ", "0".repeat(60))),
        "{many}"
    );
}

/// Catches 1,000 that is taken for 1 or for 1000, by whatever sign its thousands are parted, and advice that
/// is certain where decimals may have been meant.
#[test]
fn thousands_separators_are_told_with_what_to_write() {
    let not = "thousands separators are not taken; write";
    for part in [
        "'", "\u{2019}", " ", "\u{a0}", "\u{2009}", "\u{202f}", "_", ",", ".",
    ] {
        let certain = if [",", "."].contains(&part) {
            " if that is meant"
        } else {
            ""
        };
        let text = format!("1{part}000");
        assert_eq!(
            told(&text),
            format!("long is '{text}': {not} 1000{certain}")
        );
        let text = format!("12{part}345{part}678");
        assert_eq!(told(&text), format!("long is '{text}': {not} 12345678"));
    }
    assert_eq!(
        told("12,34,567"),
        format!("long is '12,34,567': {not} 1234567")
    );
    let coupon = "8000 if that is meant, else write it in basis points: 8,000% is 800";
    assert_eq!(
        told_of(&COUPON, "8,000"),
        format!("coupon is '8,000': {not} {coupon}")
    );
    // Where only 0 is accepted no other number is told.
    for text in ["1,000", "1 000", "30.0", "8%"] {
        let told = [NO_DAYS, NO_COUPON].map(|column| told_of(&column, text));
        let zero = told
            .each_ref()
            .map(|told| told.ends_with("; write it as 0, or leave it empty"));
        assert_eq!(zero, [true; 2], "{told:?}");
    }
}

/// Catches a number of which a part is taken, and a reason that is another's.
#[test]
fn other_signs_are_told_by_what_they_are() {
    let advice = "write it in whole thousands of the reporting currency: a million is 1000";
    assert_eq!(told("+5"), "long is '+5': signs are not taken; write 5");
    for (why, texts) in [
        (
            ": decimals are not taken; ",
            &[
                "10.5",
                "10,50",
                "1,000.50",
                "1.000,5",
                "12345.678",
                ".5",
                "5.",
            ][..],
        ),
        (": signs are not taken; ", &["+EUR 5"]),
        (": formulas are not taken; ", &["=B2*1000", "=75"]),
        (
            ": units and other signs are not taken; ",
            &["8y", "5%", "EUR 5", "1E+03", "0x10", "1 0"],
        ),
    ] {
        for text in texts {
            assert_eq!(told(text), format!("long is '{text}'{why}{advice}"));
        }
    }
    for text in ["n/a", "#REF!", "-"] {
        let why = format!("{advice}; 0 where there is none");
        assert_eq!(
            told(text),
            format!("long is '{text}', not a whole number; {why}")
        );
    }
    let not = "decimals are not taken; write 75 if that is meant";
    assert_eq!(told("75.0"), format!("long is '75.0': {not}"));
    let else_ = "else write it in basis points: 75,00% is 7500";
    assert_eq!(
        told_of(&COUPON, "75,00"),
        format!("coupon is '75,00': {not}, {else_}")
    );
}

/// Catches a short that is entered as a long because its sign was left out as told.
#[test]
fn numbers_below_zero_are_told_with_where_they_belong() {
    let not = "a number below zero is not taken";
    for text in ["-5", "\u{2212}5", "(1,000)", "5-", "\u{2013}5"] {
        let why = format!("{not}; a long below zero is a short");
        assert_eq!(told(text), format!("long is '{text}': {why}"));
    }
    assert!(told_of(&SHORT, "-5").ends_with("a short below zero is a long"));
    for column in [GAMMA, VEGA] {
        assert!(told_of(&column, "-5").contains("; a sold option's is: "));
    }
    assert!(told_of(&AMOUNT, "-5").ends_with("the column right tells what is sold"));
    let delta = "write it without its sign, in ten-thousandths: 0.5 is 5000";
    assert_eq!(
        told_of(&DELTA, "-0.5"),
        format!("delta is '-0.5': {not}; {delta}")
    );
    assert_eq!(told_of(&DAYS, "-5"), format!("days is '-5': {not}"));
}

/// Numbers that look like those of another unit, and how what is told of them ends.
const DOUBTFUL: [(Column, &str, &str); 6] = [
    (
        COUPON,
        "8",
        "0.08%: write it in basis points: 8% is 800; write 0008 if 0.08% is meant",
    ),
    (
        COUPON,
        "20",
        "0.20%: write it in basis points: 20% is 2000; write 0020 if 0.20% is meant",
    ),
    (
        DELTA,
        "1",
        "0.0001: write it in ten-thousandths: 1 is 10000; write 0001 if 0.0001 is meant",
    ),
    (
        DELTA,
        "50",
        "0.0050: write it in ten-thousandths: 0.5 is 5000; write 0050 if 0.0050 is meant",
    ),
    (
        DELTA,
        "100",
        "0.0100: write it in ten-thousandths: 0.5 is 5000; write 0100 if 0.0100 is meant",
    ),
    (
        VOLATILITY,
        "20",
        "0.20%: write it in hundredths of a point: 20% is 2000; write 0020 if 0.20% is meant",
    ),
];

/// Catches 8 that is entered as a coupon of 8%, a delta of 50%, and a volatility of 20%.
#[test]
fn numbers_of_another_unit_are_taken_in_four_digits_alone() {
    for (column, text, why) in DOUBTFUL {
        let name = column.name;
        assert_eq!(
            told_of(&column, text),
            format!("{name} is {text}, which is {why}")
        );
        assert_eq!(
            field(&column, &format!("{text:0>4}")),
            text.parse::<u32>().map_err(|_| unreachable!())
        );
    }
    let why = "8 days: write it in days: a month is 30, a year 360; write 0008 if 8 days is meant";
    let told = told_of(&FINAL, "8");
    assert!(told.ends_with(&format!("is 8, which is {why}")), "{told}");
    for (column, most) in [
        (COUPON, 20),
        (FINAL, 30),
        (DELTA, 100),
        (VOLATILITY, 100),
        (GAMMA, 0),
        (DAYS, 0),
    ] {
        for number in 0..=300u16 {
            let plain = field::<u16>(&column, &number.to_string());
            assert_eq!(
                plain.is_err(),
                (1..=most).contains(&number),
                "{} {number}",
                column.name
            );
            assert_eq!(field(&column, &written(&column, number)), Ok(number));
        }
    }
}

/// Catches advice to write a number that is refused in its turn.
#[test]
fn what_is_told_to_write_is_taken() {
    for (column, text, number) in [
        (COUPON, "0.08%", "0008"),
        (COUPON, "0.21%", "21"),
        (DELTA, "0.005", "0050"),
        (VOLATILITY, "0.2%", "0020"),
        (FINAL, "8d", "0008"),
        (DAYS, "8d", "8"),
    ] {
        let told = told_of(&column, text);
        assert!(told.ends_with(&format!(" is {number}")), "{told}");
        assert!(field::<u16>(&column, number).is_ok());
    }
}
