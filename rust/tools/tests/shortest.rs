//! `shortest` as a user meets it.

mod common;

use books::csv::HEADER;
use common::{book, fails, packed, prints, run, temporary, unpacked};
use std::fs;

/// A file with these bytes.
fn file(name: &str, bytes: &[u8]) -> String {
    let path = temporary(name);
    fs::write(&path, bytes).unwrap();
    path
}

/// A length as it is printed.
fn thousands(length: usize) -> String {
    match length {
        0..1_000 => length.to_string(),
        _ => format!("{},{:03}", length / 1_000, length % 1_000),
    }
}

/// What is told of a book, without the line of the file, and the file.
fn shown(book: &str) -> (String, String) {
    let out = format!("{book}.shown");
    let _ = fs::remove_file(&out);
    let text = prints(&["shortest", book, "-o", &out]);
    let [length, of] = [&out, book].map(|path| thousands(fs::read(path).unwrap().len()));
    let line = format!("{out}: {length} of {of} bytes\n");
    (text.strip_suffix(&line).unwrap().to_string(), out)
}

/// How the report explains a file that it refuses.
fn reported(path: &str) -> String {
    let told = fails(1, &["report", path]);
    let begins = format!("market-risk: {path}: ");
    told.strip_prefix(&begins).unwrap().to_string()
}

/// Bytes of the sample `mixed` changed from a place on; its rows are 4 of interest, 3 of equity, 3 of
/// foreign exchange and 2 of commodities.
fn spoiled(name: &str, changes: &[(usize, &[u8])]) -> String {
    let mut bytes = fs::read(packed("mixed", name)).unwrap();
    for (at, new) in changes {
        bytes[*at..at + new.len()].copy_from_slice(new);
    }
    file(&format!("{name}.spoiled"), &bytes)
}

/// Where a field of a row begins.
fn at(row: usize, field: usize) -> usize {
    8 + 16 * row + field
}

/// The classes of the rows.
const CLASSES: [usize; 12] = [0, 0, 0, 0, 1, 1, 1, 2, 2, 2, 3, 3];

/// Each number of a row: the row and the field that is changed, to what, and how that is told.
const ROWS: [(u64, [usize; 2], &[u8], &str); 12] = [
    (4, [0, 0], &[32], "group may be 0 to 31"),
    (5, [1, 1], &[9], " other, floating"),
    (6, [3, 1], &[1, 0xa1, 0x8c], "days may be 0 to 36,000"),
    (7, [2, 4], &[0x11, 0x27], "coupon may be 0 to 10,000"),
    (15, [1, 1], &[4, 90, 0, 89, 0], " from there to 36,000"),
    (5, [4, 1], &[4], " ordinary, diversified, index"),
    (6, [6, 2], &[1], "days must be 0"),
    (7, [5, 4], &[1], "coupon must be 0"),
    (8, [7, 8], &[0; 8], " must be nonzero"),
    (9, [9, 12], &[0, 0, 0, 0x80], " at most 1,000,000,000"),
    (8, [10, 8], &[1; 8], " must be nonzero"),
    (4, [11, 0], &[255], "group may be 0 to 31"),
];

/// Catches a row of another place or class, a refusal in other words than the report's, and a file
/// that the report does not explain.
#[test]
fn each_number_of_a_row() {
    let names = ["interest", "equity", "fx", "commodity"];
    for (number, [row, field], bytes, may) in ROWS {
        let name = format!("shortest-row-{row}-{number}");
        let book = spoiled(&name, &[(at(row, field), bytes)]);
        let ((told, out), class) = (shown(&book), CLASSES[row]);
        let (begins, ends) = (format!("refused {number} row {row}: "), format!("{may}\n"));
        assert!(told.starts_with(&begins) && told.ends_with(&ends), "{told}");
        let fields = format!("\n{} row: group ", names[class]);
        assert!(told.contains(&fields), "{told}");
        assert_eq!(reported(&book), told);
        let whole = fs::read(&book).unwrap();
        let mut expected = vec![0; 8];
        expected[2 * class] = 1;
        expected.extend(&whole[at(row, 0)..at(row + 1, 0)]);
        assert_eq!(fs::read(&out).unwrap(), expected);
        // The report explains it with the same words, as row 0.
        let alone = told.replace(&format!(" row {row}: "), " row 0: ");
        assert_eq!(reported(&out), alone);
        assert_eq!(unpacked(&out), [unpacked(&book)[row].clone()]);
    }
}

/// Contents, as they are told and as the report tells them of the file.
#[test]
fn each_number_of_a_file() {
    let mixed = fs::read(packed("mixed", "shortest-file")).unwrap();
    let over = [&[0xa1, 0x0f, 0, 0, 0, 0, 0, 0], &mixed[8..]].concat();
    // Eight letters with a comma: too short for text.
    let text = b"abc,efgh";
    let counts = "has 199 bytes and counts 4, 3, 3, 2 rows, together 12";
    let most = "and 4,000 are the most";
    let [over_most, text_most] = [
        format!(" 4,001, 0, 0, 0 rows, together 4,001, {most}"),
        format!(" 25,185, 11,363, 26,213, 26,727 rows, together 89,488, {most}"),
    ];
    type File<'a> = &'a [u8];
    let cases: [(&str, u64, File, File, &str); 7] = [
        ("none", 1, b"", b"", HEADER),
        ("few", 1, &mixed[..7], b"", HEADER),
        ("over", 2, &over, &over[..8], &over_most),
        ("text", 2, text, text, &text_most),
        ("cut", 3, &mixed[..199], &mixed[..8], counts),
        (
            "zeros",
            3,
            &[0; 24],
            &[1, 0, 0, 0, 0, 0, 0, 0],
            " 0, 0, 0, 0 rows, together 0",
        ),
        (
            "short",
            3,
            &mixed[..8],
            &mixed[..8],
            " 4, 3, 3, 2 rows, together 12",
        ),
    ];
    for (name, number, bytes, expected, ends) in cases {
        let book = file(&format!("shortest-{name}.book"), bytes);
        let (told, out) = shown(&book);
        let (begins, ends) = (format!("refused {number}: "), format!("{ends}\n"));
        assert!(told.starts_with(&begins) && told.ends_with(&ends), "{told}");
        assert_eq!(reported(&book), told);
        assert_eq!(fs::read(&out).unwrap(), expected, "{name}");
        let report = reported(&out);
        let length = match expected.len() {
            0 => "\nthe file is empty; ".to_string(),
            length => format!("\nthe file has {length} bytes"),
        };
        assert!(
            report.starts_with(&begins) && report.contains(&length),
            "{report}"
        );
    }
}

/// Catches the last bad row in the place of the first, and a book that is kept whole.
#[test]
fn the_first_of_several_faults_is_shown() {
    let book = spoiled(
        "shortest-several",
        &[(at(11, 0), &[32]), (at(5, 4), &[1]), (at(8, 8), &[0; 8])],
    );
    let (told, out) = shown(&book);
    assert!(
        told.starts_with("refused 7 row 5: coupon out of its range\nequity row: "),
        "{told}"
    );
    assert_eq!(fs::read(&out).unwrap()[..8], [0, 0, 1, 0, 0, 0, 0, 0]);
    let (again, same) = shown(&out);
    assert_eq!(again, told.replace("row 5", "row 0"));
    assert_eq!(fs::read(&same).unwrap(), fs::read(&out).unwrap());
}

/// Catches a file that is written of an accepted book, or an old one that is lost.
#[test]
fn an_accepted_book_shows_nothing() {
    let out = temporary("accepted.shown");
    for name in ["empty", "mixed", "floating"] {
        let book = packed(name, "shortest-accepted");
        let _ = fs::remove_file(&out);
        let told = fails(1, &["shortest", &book, "-o", &out]);
        let why = "accepted: there is no refusal to show, and nothing is written";
        assert_eq!(told, format!("market-risk: {book}: {why}\n"));
        assert!(!fs::exists(&out).unwrap());
        fs::write(&out, "old").unwrap();
        fails(1, &["shortest", &book, "-o", &out]);
        assert_eq!(fs::read(&out).unwrap(), b"old");
    }
}

/// A book of 4,000 rows with a bad last one is shown by 24 of its bytes.
#[test]
fn a_full_book_is_shown_by_its_row() {
    let rows = vec!["fx,1,none,0,0,0,5,0"; 4_000];
    let mut bytes = fs::read(book("shortest-full", &rows)).unwrap();
    bytes[64_008 - 16] = 32;
    let bad = file("shortest-full.bad", &bytes);
    let (told, out) = shown(&bad);
    assert!(
        told.starts_with("refused 4 row 3999: group over 31\nfx row: group 32, "),
        "{told}"
    );
    assert_eq!(
        fs::read(&out).unwrap(),
        [&[0, 0, 0, 0, 1, 0, 0, 0], &bytes[63_992..]].concat()
    );
    let text = prints(&["shortest", &bad, "-o", &out]);
    assert!(text.ends_with(".shown: 24 of 64,008 bytes\n"), "{text}");
}

#[test]
fn wrong_command_lines_and_files() {
    let (bad, out) = (file("shortest-words.book", &[7]), temporary("words.shown"));
    assert!(fails(2, &["shortest"]).contains("shortest: BOOK is missing"));
    assert!(fails(2, &["shortest", &bad]).contains("shortest: -o FILE is missing"));
    assert!(fails(2, &["shortest", &bad, "-o"]).contains("-o wants a value"));
    assert!(fails(2, &["shortest", &bad, &out]).contains("words.shown' is one file too many"));
    assert!(fails(2, &["shortest", &bad, "-o", &bad]).contains("are one file"));
    for to in ["-", "/dev/stdout"] {
        let told = fails(2, &["shortest", &bad, "-o", to]);
        assert!(told.contains("shortest: -o is standard output"), "{told}");
    }
    let told = fails(2, &["shortest", &bad, "-o", &out, "--table", "x"]);
    assert!(told.contains("no option '--table'"), "{told}");
    assert!(fails(2, &["shortest", &temporary("no-book"), "-o", &out]).contains("no-book: "));
    assert_eq!(fs::read(&bad).unwrap(), [7]);
    assert!(run(&["shortest", "-o", &out, &bad]).status.success());
    let help = prints(&["shortest", "--help"]);
    assert!(help.starts_with("market-risk shortest BOOK -o FILE [--csv]\n"));
}
