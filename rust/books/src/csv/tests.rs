//! Books as text: rows, columns, separators, and what is told of each fault.

use super::*;

/// A row of every class, and the same in the order of a book.
const ROWS: &str = "fx,1,none,0,0,0,5,0\ninterest,2,other,30,300,9,0,7\nfx,0,none,0,0,0,6,0\n";
const SORTED: &str = "interest,2,other,30,300,9,0,7\nfx,1,none,0,0,0,5,0\nfx,0,none,0,0,0,6,0\n";

/// What is told of a text.
fn told(text: &str) -> String {
    parse(text).unwrap_err().to_string()
}

/// What is told of a line, which is the third.
fn what(line: &str) -> String {
    let told = told(&format!("{HEADER}\n\n{line}\n"));
    told.strip_prefix("line 3: ").unwrap().to_string()
}

#[test]
fn rows_are_sorted_by_class_and_keep_their_lines() {
    let text = format!("\u{feff}{HEADER}\r\nfx,1,none,0,0,0,5,0\r\n\r\ninterest, 2, other,30,300,9,0,7\r\nfx,0,none,0,0,0,6,0\r\n");
    let parsed = parse(&text).unwrap();
    assert_eq!(parsed.lines, [4, 2, 5]);
    let written = format!("{HEADER}\n{SORTED}");
    assert_eq!(write(&parsed.book), written);
    assert_eq!(parse(&written).unwrap().book, parsed.book);
}

#[test]
fn a_damaged_row_comes_back_as_it_was() {
    let row = Row {
        group: 255,
        kind: 7,
        days: u16::MAX,
        coupon: u16::MAX,
        issue: u16::MAX,
        long: u32::MAX,
        short: u32::MAX,
    };
    for class in 0..4 {
        let mut book = Book::default();
        book.classes[class].push(row);
        assert_eq!(parse(&write(&book)).unwrap().book, book);
    }
}

/// Catches a number that looks like one of another unit and is not written in four digits, or is in a column
/// that does not take them.
#[test]
fn small_numbers_come_back_as_they_were() {
    let mut book = Book::default();
    for class in 0..4 {
        for kind in 0..6 {
            let rows = (0..=300).map(|count| Row {
                kind,
                days: count,
                coupon: count,
                issue: count,
                ..Row::default()
            });
            book.classes[class].extend(rows);
        }
    }
    assert_eq!(parse(&write(&book)).unwrap().book, book);
}

/// Catches a note whose two maturities are exchanged, or that comes back as another kind.
#[test]
fn a_floating_rate_note_has_its_final_maturity_in_the_column_of_the_coupon() {
    let line = "interest,7,floating,90,2880,5,1000,0";
    let book = parse(&format!("{HEADER}\n{line}\n")).unwrap().book;
    let note = Row {
        group: 7,
        kind: 4,
        days: 90,
        coupon: 2880,
        issue: 5,
        long: 1000,
        short: 0,
    };
    assert_eq!(book.classes[0], [note]);
    assert_eq!(write(&book), format!("{HEADER}\n{line}\n"));
    // Kind 4 has no name in the other classes.
    let row = note.with_days(0).with_coupon(0);
    for class in 1..4 {
        let mut book = Book::default();
        book.classes[class].push(row);
        let text = write(&book);
        assert!(text.contains(",7,4,0,0,5,1000,0\n"), "{text}");
        assert_eq!(parse(&text).unwrap().book, book);
    }
}

/// Catches a maturity that was left out and costs nothing, and days that must be written where there are
/// none.
#[test]
fn days_and_coupon_must_be_written_where_they_bear_on_a_charge() {
    for (line, told) in [
        ("interest,7,government,,200,1,5,0", "days is empty; "),
        ("interest,7,government,7200,,1,5,0", "coupon is empty; "),
        (
            "interest,7,floating,,2880,1,5,0",
            "days (to fixing) is empty; ",
        ),
        (
            "interest,7,floating,90,,1,5,0",
            "coupon (days to final maturity) is empty; ",
        ),
        ("commodity,7,none,,,,5,0", "days is empty; "),
    ] {
        assert!(what(line).starts_with(told), "{line}: {}", what(line));
    }
    let text = "fx,1,none,,,,5,0\nequity,1,index,,,,5,0\ncommodity,1,none,0,,,5,0\n";
    let text = format!("{text}interest,1,other,0,0,,5,0\n");
    let book = parse(&format!("{HEADER}\n{text}")).unwrap().book;
    assert_eq!(line(2, &book.classes[2][0]), "fx,1,none,0,0,0,5,0");
    assert_eq!(line(1, &book.classes[1][0]), "equity,1,index,0,0,0,5,0");
    assert_eq!(line(3, &book.classes[3][0]), "commodity,1,none,0,0,0,5,0");
    assert_eq!(line(0, &book.classes[0][0]), "interest,1,other,0,0,0,5,0");
    assert!(what("fx,1,none,,,,5,").starts_with("short is empty; "));
    assert!(what("fx,1,none,,,,,5").starts_with("long is empty; "));
    assert!(what("fx,,none,,,,5,0").starts_with("group is empty; "));
    assert_eq!(what("fx,1,,,,,5,0"), "kind is '', not one of none for fx");
    assert!(what(",1,none,,,,5,0").starts_with("class is '', not one of interest, "));
}

#[test]
fn errors_name_the_line_and_the_field() {
    assert_eq!(what("fx,1,none,0,0,0,5"), "7 fields where 8 are wanted");
    assert!(what("bonds,1,none,0,0,0,5,0").contains("interest, equity, fx, commodity"));
    assert!(
        what("Equity,1,government,0,0,0,5,0").contains("ordinary, diversified, index for equity")
    );
    assert!(what("equity,1,floating,0,0,0,5,0").starts_with("kind is 'floating'"));
    assert!(what("interest,1,float,90,2880,0,5,0")
        .contains("government, qualifying, other, floating for interest"));
    let maturity = what("interest,1,floating,90,8y,0,5,0");
    assert!(maturity.starts_with("coupon (days to final maturity) is '8y': units"));
    assert!(maturity.ends_with("write it in days: 8y is 2880"));
    let fixing = what("interest,1,floating,65536,2880,0,5,0");
    assert_eq!(fixing, "days (to fixing) is '65536', and may be 0 to 360");
    assert!(what("interest,1,other,90,8%,0,5,0").ends_with("in basis points: 8% is 800"));
    assert!(what("interest,1,other,90,8,0,5,0").starts_with("coupon is 8, which is 0.08%"));
    // Of a note the column holds days: few look like years.
    assert!(parse(&format!("{HEADER}\ninterest,1,floating,8,0008,0,5,0\n")).is_ok());
    let years = what("interest,1,floating,3,8,0,5,0");
    assert!(years.starts_with("coupon (days to final maturity) is 8, which is 8 days: "));
    // Where the class or the kind is not known, no advice is that of another.
    assert!(what("intrest,7,other,10y,800,0,5,0").contains("class is 'intrest'"));
    let told = parse(&format!("{HEADER}\nintrest,7,other,10y,8%,0,5,0\n")).unwrap_err();
    assert!(told.told()[1].what.ends_with("in days: 10y is 3600"));
    assert!(told.told()[2].what.ends_with("in basis points: 8% is 800"));
    let told = parse(&format!("{HEADER}\ninterest,7,FRN,90,5y,0,5,0\n")).unwrap_err();
    assert!(told.told()[1]
        .what
        .ends_with("; write a whole number of 0 to 36,000"));
    assert!(what("fx,256,none,0,0,0,5,0").starts_with("group is '256', and may be 0 to 31"));
    assert!(what("fx,1,none,0,0,0,-5,0").starts_with("long is '-5': a number below zero"));
    assert!(what("fx,1,none,0,0,0,4294967296,0").ends_with("may be 0 to 1,000,000,000"));
    let thousands =
        "long is '1,000': thousands separators are not taken; write 1000 if that is meant";
    assert_eq!(what("fx,1,none,0,0,0,\"1,000\",0"), thousands);
}

/// Catches a fault that hides another of its line, and a column that is another's.
#[test]
fn every_fault_of_a_line_is_told() {
    let faults = parse(&format!(
        "{HEADER}\nbonds,x,none,1d,,n,,-5\ninterest,32,x,,,,5\n"
    ));
    let told = faults.unwrap_err();
    let columns: Vec<_> = told
        .told()
        .iter()
        .map(|fault| (fault.line, fault.column.as_deref()))
        .collect();
    let of_first = ["class", "group", "days", "issue", "long", "short"];
    let mut expected: Vec<_> = of_first.map(|name| (2, Some(name))).to_vec();
    expected.push((3, None));
    assert_eq!(columns, expected);
    let told = parse(&format!("{HEADER}\ninterest,x,y,,,,5,0\n")).unwrap_err();
    let columns: Vec<_> = told
        .told()
        .iter()
        .flat_map(|fault| fault.column.as_deref())
        .collect();
    assert_eq!(columns, ["group", "kind", "days", "coupon"]);
}

/// Catches a bad line that hides those after it, and one that is told twice.
#[test]
fn every_bad_line_is_told_once() {
    let text = format!("{HEADER}\nfx,x,y,z,0,0,5,0\n{ROWS}fx,1,none,0,0,0,5\nfx,1,\"none,0");
    let lines = [
        "line 2: group is 'x', not a whole number; write a whole number of 0 to 31",
        "line 2: kind is 'y', not one of none for fx",
        "line 2: days is 'z', not a whole number; write it as 0, or leave it empty",
        "line 6: 7 fields where 8 are wanted",
        "line 7: a quote begins here that is not closed",
    ];
    assert_eq!(told(&text).lines().collect::<Vec<_>>(), lines);
    let many = told(&format!("{HEADER}\n{}", "fx\n".repeat(25)));
    assert_eq!(many.lines().count(), 21);
    assert!(many.ends_with("\nline 21: 1 fields where 8 are wanted\nand 5 more bad lines"));
}
