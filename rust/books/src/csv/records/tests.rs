//! Records by hand: line ends, quotes, comments and empty lines.

use super::*;

/// The records of a text, with their lines, and the faults in between.
fn cut(separator: char, text: &str) -> Vec<String> {
    let shown = |record: Result<Record, LineError>| match record {
        Ok(Record { line, fields }) => format!("{line}: {}", fields.join("|")),
        Err(fault) => fault.to_string(),
    };
    Records::new(text, 1, separator).map(shown).collect()
}

/// Catches a line end that is not one, or that is counted twice.
#[test]
fn lines_end_in_three_ways() {
    let expected = ["1: a|b", "2: c", "4: d|", "6: e"];
    for end in ["\n", "\r\n", "\r"] {
        let text = "a,b~c~~d,~~e".replace('~', end);
        assert_eq!(cut(',', &text), expected, "{text:?}");
    }
    assert_eq!(cut(',', "a\r\n\rb\n\rc"), ["1: a", "3: b", "5: c"]);
    assert!(cut(',', "").is_empty());
    assert_eq!(lines_in("\r\n\r\n\n\r"), 4);
}

/// Catches a separator or line end in quotes that cuts, and a doubled quote that is dropped or kept
/// double.
#[test]
fn quotes_hold_what_they_hold() {
    assert_eq!(cut(',', "\"a,b\",c"), ["1: a,b|c"]);
    assert_eq!(
        cut(',', "\"a\r\nb\nc\rd\",e\nf"),
        ["1: a\r\nb\nc\rd|e", "5: f"]
    );
    assert_eq!(cut(';', "\"say \"\"x\"\"\";\"\"\"\""), ["1: say \"x\"|\""]);
    assert_eq!(
        cut(',', " \"a\" ,\t\"b\"\t\n\"\",\"c \""),
        ["1: a|b", "2: |c"]
    );
    assert_eq!(cut('\t', "\"a\"\t\t b \t"), ["1: a||b|"]);
    assert_eq!(cut(',', "5\",a\"b\"\n"), ["1: 5\"|a\"b\""]);
}

/// Catches a quote that is told on the line where the text ends, and lines that are lost behind a
/// fault.
#[test]
fn open_quotes_are_told_where_they_begin() {
    let open = "a quote begins here that is not closed";
    assert_eq!(
        cut(',', "a\nb,\"c\nd\ne"),
        ["1: a".into(), format!("line 2: {open}")]
    );
    assert_eq!(cut(',', "\"a\nb\",\"c"), [format!("line 2: {open}")]);
    assert_eq!(cut(',', "\""), [format!("line 1: {open}")]);
    assert_eq!(cut(',', "\"a\"\"\n"), [format!("line 1: {open}")]);
    let doubled = "stands after a closing quote; a quote within quotes is doubled";
    let told = [
        "1: x".into(),
        format!("line 2: 'b' {doubled}"),
        "3: y".into(),
    ];
    assert_eq!(cut(',', "x\n\"a\" b,\"c\ny"), told);
}

/// Catches a comment with a quote in it that swallows lines, and empty lines that are rows.
#[test]
fn comments_and_empty_lines_are_passed_over() {
    let text = "# a \"quote\n  # b\n\"# c; d\";;\n\n ;; \n\"\";\t\n;# e\nf#";
    assert_eq!(cut(';', text), ["7: |# e", "8: f#"]);
    assert_eq!(cut('\t', "\t\t\r\n\t#\r\n#"), ["2: |#"]);
    // Under another separator these are signs.
    assert_eq!(cut(',', ";;\n"), ["1: ;;"]);
}

/// Catches a row that is left out of the total because its first field is an error of a spreadsheet, and a
/// comment that is taken for one.
#[test]
fn a_row_that_begins_with_an_error_is_no_comment() {
    let why = "a comment has a blank behind its #";
    for error in [
        "#REF!", "#N/A", "#NAME?", "#DIV/0!", "#NV", "######", "#BEZUG!",
    ] {
        for quote in ["", "\""] {
            let text = format!("a,b\n {quote}{error}{quote} ,7,5\nc,d");
            let told = format!("line 2: a row begins with '{error}'; {why}");
            assert_eq!(cut(',', &text), ["1: a|b", &told, "3: c|d"]);
        }
    }
    // An error and one field more are enough, and of other words the fields that every row has.
    for (line, first) in [("#REF!,7", "#REF!"), ("#n/a,7,none,,,,5,0", "#n/a")] {
        let told = format!("line 1: a row begins with '{first}'; {why}");
        assert_eq!(cut(',', line), [told]);
    }
    for error in ["#N/A Invalid Security", "#n/a", "#Wert!", "#interest"] {
        let text = format!("a,b\n{error},7,other,9,,5,0\nc,d");
        let told = format!("line 2: a row begins with '{error}'; {why}");
        assert_eq!(cut(',', &text), ["1: a|b", &told, "3: c|d"]);
    }
    for comment in [
        "# interest,7,other,9,8,5,0",
        "#a, b, c, d",
        "#,7,other,9,8,5,0",
        "# REF!,7",
        "#ref,7",
        "#,7",
        "#REF!",
        "#REF!,,",
        "\"#TODO\",",
        "# a",
        "####",
    ] {
        let text = format!("a,b\n{comment}\nc,d");
        assert_eq!(cut(',', &text), ["1: a|b", "3: c|d"], "{comment}");
    }
}
