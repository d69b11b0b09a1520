//! Headers by hand: columns in any order, wrong ones, and rows that do not fit.

use super::*;

const WANTED: [&str; 3] = ["days", "long", "short"];

/// The rows of a text, in the order of the wanted columns, or what is told first.
fn rows(text: &str) -> Result<Vec<String>, String> {
    let (columns, records) = read(&WANTED, text).map_err(|faults| faults.to_string())?;
    let row = |record: Result<Record, LineError>| {
        let record = record.map_err(|fault| fault.to_string())?;
        Ok(columns.row(&record.fields)?.join(" "))
    };
    records.map(row).collect()
}

#[test]
fn columns_may_stand_in_any_order_and_case() {
    for text in [
        "days,long,short\n1,2,3\n",
        "Short , DAYS,\tLong\n3,1,2\n",
        "\u{feff}sep=;\r\n\"long\"; \"Days\" ;short;;\r\n;;;;\r\n2;1;3;;\r\n",
        "# c\n\nlong\tdays\tshort\t\n\n2\t1\t3\n",
        "short;long;days\n3;2;1;;;\n",
    ] {
        assert_eq!(rows(text), Ok(vec!["1 2 3".into()]), "{text:?}");
    }
}

/// Catches a misspelt column that is left out, and a fault that hides another.
#[test]
fn headers_are_told_with_all_that_is_wrong() {
    let columns = "the columns are days, long, short";
    for (text, what) in [
        ("days,long\n", "1: short is missing"),
        (
            "\n#\ndays;lng;short\n",
            "3: 'lng' is no column; long is missing",
        ),
        ("days,long,Long,short\n", "1: 'Long' stands twice"),
        ("days,,long,short\n", "1: column 2 has no name"),
        (
            "days,longs,days\n",
            "1: 'longs' is no column; 'days' stands twice; long is missing; short is missing",
        ),
        ("fx,1,none\n", "1: 'fx,1,none' is no header"),
        (
            "sep=;\ndays,long,short\n",
            "2: 'days,long,short' is no header",
        ),
        ("", "1: there is no header"),
        ("\u{feff}\n# days\n,,\n", "1: there is no header"),
    ] {
        assert_eq!(
            rows(text),
            Err(format!("line {what}; {columns}")),
            "{text:?}"
        );
    }
}

/// Catches 1,000 without quotes that is taken for 1: it pushes empty days past the last column.
#[test]
fn rows_have_the_fields_of_the_header() {
    let header = "long,short,days";
    let told = |end: &str, row: &str| rows(&format!("{header}{end}\n{row}\n"));
    let hint = "are wanted; is there a thousands separator?";
    for row in ["1,000,0,", "1,000,0,7", "2,3,1,"] {
        assert_eq!(told("", row), Err(format!("4 fields where 3 {hint}")));
    }
    assert_eq!(told("", "2,3"), Err("2 fields where 3 are wanted".into()));
    // Empty columns at the header's end stand in every row: one that moved into them is told.
    assert_eq!(told(",,", "2,3,1,,"), Ok(vec!["1 2 3".into()]));
    assert_eq!(
        told(",,", "2,3,1"),
        Err("3 fields where 5 are wanted".into())
    );
    let moved = Err(format!("4 fields where 5 {hint}"));
    assert_eq!(told(",,", "1,000,0,"), moved);
    let past = Err("'x' stands past the last column".into());
    assert_eq!(told(",,", "2,3,1,,x"), past);
    // Where another sign separates, a comma makes no field.
    let semicolons = |row: &str| rows(&format!("long;short;days\n{row}\n"));
    assert_eq!(semicolons("1,000;0;;"), Ok(vec![" 1,000 0".into()]));
    assert_eq!(semicolons("2;3;1;x"), past);
}
