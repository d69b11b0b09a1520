//! Option tables as text.

use super::*;
use crate::options::{decode, encode};
use crate::Random;

/// The option of C.4, 50 times.
const LINE: &str = "commodity,4,sold call,none,25000,7210,170,84,2000,1081";

/// What is told of a line, which is the third.
fn what(line: &str) -> String {
    let error = parse(&format!("{HEADER}\n\n{line}\n")).unwrap_err();
    let told = error.to_string();
    told.strip_prefix("line 3: ").unwrap().to_string()
}

/// Catches columns that are exchanged, and numbers that are taken in other units.
#[test]
fn each_column_is_its_field() {
    let parsed = parse(&format!("{HEADER}\n{LINE}\n")).unwrap();
    let option = OptionRow {
        class: 4,
        group: 4,
        right: 2,
        kind: 0,
        amount: 25_000,
        delta: 7_210,
        gamma: 170,
        vega: 84,
        volatility: 2_000,
        days: 1_081,
    };
    assert_eq!(parsed.options, [option]);
    assert_eq!(write(&parsed.options), format!("{HEADER}\n{LINE}\n"));
}

/// Catches options that are sorted, and lines that are counted without the blank ones.
#[test]
fn options_keep_their_order_and_their_lines() {
    let (share, gold) = (
        "equity,3,sold put,index,7,1001,2,3,4000,0",
        "fx,0,bought put,none,1,0,0,0,0,0",
    );
    let loose = format!(
        "\u{feff}{HEADER}\r\n\r\n {LINE}\r\n{}\r\n\t\r\n{gold}",
        share.replace(',', " , ")
    );
    let parsed = parse(&loose).unwrap();
    assert_eq!(parsed.lines, [3, 4, 6]);
    let text = format!("{HEADER}\n{LINE}\n{share}\n{gold}\n");
    assert_eq!(write(&parsed.options), text);
    assert_eq!(parse(&text).unwrap().options, parsed.options);
    let none = parse(HEADER).unwrap();
    assert_eq!(none, Parsed::default());
    assert_eq!(write(&[]), format!("{HEADER}\n"));
}

/// Whatever the bytes are, also where no library would accept them.
#[test]
fn any_table_comes_back_as_it_was() {
    let mut random = Random::new(7);
    for count in 0..200u16 {
        let mut bytes = count.to_le_bytes().to_vec();
        bytes.extend((0..18 * count).map(|_| random.below(256) as u8));
        let options = decode(&bytes).unwrap();
        let text = write(&options);
        let parsed = parse(&text).unwrap();
        assert_eq!(encode(&parsed.options).unwrap(), bytes);
        assert_eq!(write(&parsed.options), text);
    }
    // Small ones are written in four digits where they look like those of another unit.
    let small = |count| OptionRow {
        class: 4,
        amount: u32::from(count),
        delta: count,
        gamma: count,
        vega: count,
        volatility: count,
        days: count,
        ..OptionRow::default()
    };
    let small: Vec<OptionRow> = (0..=300).map(small).collect();
    assert_eq!(parse(&write(&small)).unwrap().options, small);
    for class in 0..=255 {
        for low in 0..4 {
            let option = OptionRow {
                class,
                right: low,
                kind: low,
                ..OptionRow::default()
            };
            assert_eq!(parse(&write(&[option])).unwrap().options, [option]);
        }
    }
}

/// What is told of the line after a replacement.
fn told(from: &str, to: &str) -> String {
    assert!(LINE.contains(from));
    what(&LINE.replacen(from, to, 1))
}

#[test]
fn errors_name_the_line_and_the_field() {
    assert_eq!(told(",1081", ""), "9 fields where 10 are wanted");
    let many = "11 fields where 10 are wanted; is there a thousands separator?";
    assert_eq!(told("1081", "1081,"), many);
    assert_eq!(told("25000", "25,000"), many);
    let classes = "not one of equity, fx, commodity";
    for class in ["interest", "4", "256"] {
        let why = format!("class is '{class}', {classes}");
        assert_eq!(told("commodity", class), why);
    }
    let rights = "not one of bought call, bought put, sold call, sold put";
    assert_eq!(
        told("sold call", "call"),
        format!("right is 'call', {rights}")
    );
    let kinds = "not one of none for commodity";
    assert_eq!(told("none", "index"), format!("kind is 'index', {kinds}"));
    let kinds = "not one of ordinary, diversified, index for equity";
    assert_eq!(
        told("commodity", "equity"),
        format!("kind is 'none', {kinds}")
    );
    let kinds = "not a whole number; write a whole number of 0 to 255";
    assert_eq!(told("commodity", "7"), format!("kind is 'none', {kinds}"));
    let why = "write it in days: a month is 30, a year 360; 0 for stock";
    assert_eq!(told("1081", ""), format!("days is empty; {why}"));
}

/// Catches a number that is cut to its bytes.
#[test]
fn numbers_must_be_whole_and_fit() {
    for (delta, why) in [
        (
            "0.721",
            "'0.721': decimals are not taken; write it in ten-thousandths: 0.721 is 7210",
        ),
        (
            "-7210",
            "'-7210': a number below zero is not taken; \
             write it without its sign, in ten-thousandths: 0.5 is 5000",
        ),
        ("", "empty; write it in ten-thousandths: 0.5 is 5000"),
    ] {
        assert_eq!(told("7210", delta), format!("delta is {why}"));
    }
    for (name, value, most, range) in [
        ("group", "4", 255, "0 to 31"),
        ("amount", "25000", 4_294_967_295u64, "1 to 1,000,000"),
        ("delta", "7210", 65_535, "0 to 10,000"),
        (
            "gamma (change of delta for a move of 1%)",
            "170",
            65_535,
            "0 to 65,535",
        ),
        ("vega", "84", 65_535, "0 to 65,535"),
        ("volatility", "2000", 65_535, "0 to 65,535"),
    ] {
        let over = most + 1;
        let why = format!("{name} is '{over}', and may be {range}");
        assert_eq!(told(&format!(",{value},"), &format!(",{over},")), why);
        let fits = LINE.replacen(&format!(",{value},"), &format!(",{most},"), 1);
        assert!(parse(&format!("{HEADER}\n{fits}\n")).is_ok());
    }
    assert_eq!(
        told("1081", "65536"),
        "days is '65536', and may be 0 to 36,000"
    );
}

/// Catches a table that is read as a book's text is not, and empty greeks that are taken for 0.
#[test]
fn a_table_may_be_written_as_spreadsheets_do() {
    let text = "sep=;\r\nDays;Class;Group;Right;Kind;Amount;Delta;Gamma;Vega;\"Volatility\";\r\n\
                # gold\r\n;FX;0;\"Bought Call\";None;1500;6001;260;4;1450;\r\n;;;;;;;;;;\r\n";
    let parsed = parse(text).unwrap();
    assert_eq!(parsed.lines, [4]);
    assert_eq!(
        line(&parsed.options[0]),
        "fx,0,bought call,none,1500,6001,260,4,1450,0"
    );
    let without = parse(&text.replace(";260;", ";;")).unwrap_err();
    let why = "line 4: gamma (change of delta for a move of 1%) is empty; write it in ten-thousandths: 0.5 is 5000";
    assert_eq!(without.to_string(), why);
}

/// Catches a book's text that is taken for a table's, and a column that is left out.
#[test]
fn the_header_must_be_there() {
    let columns = HEADER.replace(',', ", ");
    let side = HEADER.replace("right", "side");
    let of_book = "'coupon' is no column; 'issue' is no column; 'long' is no column; \
                   'short' is no column; right is missing; amount is missing; delta is missing; \
                   gamma is missing; vega is missing; volatility is missing";
    let no_header = format!("'{LINE}' is no header");
    for (text, what) in [
        ("", "there is no header"),
        ("\n\n", "there is no header"),
        (LINE, &no_header),
        (&HEADER[1..], "'lass' is no column; class is missing"),
        (&side, "'side' is no column; right is missing"),
        (crate::csv::HEADER, of_book),
    ] {
        let told = parse(text).unwrap_err().to_string();
        assert_eq!(told, format!("line 1: {what}; the columns are {columns}"));
    }
}
