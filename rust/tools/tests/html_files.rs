//! The page as a file: what it needs, names that mean something to a browser, refused books, and
//! command lines that are wrong.

mod common;
mod page;

use common::{fails, packed, prints, run, sample, temporary};
use page::parse;
use std::fs;

/// Catches a page that wants anything from elsewhere, or runs something.
#[test]
fn a_page_needs_nothing_else() {
    let book = packed("mixed", "html-alone");
    let asked = "--currency 1 --band 4 --side long --limit 90000";
    let words: Vec<&str> = ["html", &book, "-o", "-"]
        .into_iter()
        .chain(asked.split(' '))
        .collect();
    let page = prints(&words);
    for word in [
        "http", "<script", "src=", "@import", "<link", "<img", "onload", "file:",
    ] {
        assert!(!page.contains(word), "{word}");
    }
    let tree = parse(&page);
    for link in tree.named("a") {
        let place = link.get("href").strip_prefix('#').unwrap();
        assert!(tree.section(place).is_some(), "{place}");
    }
    let drawings = tree.classed("drawing");
    assert_eq!(drawings.len(), 4);
    for drawing in drawings {
        assert_eq!(drawing.get("role"), "img");
        let told = ["title", "desc"].map(|part| {
            let parts = drawing.children.iter();
            let mut parts = parts.filter(|child| child.name == part);
            let part = parts.next().unwrap();
            assert!(!part.text.is_empty());
            part.get("id")
        });
        assert_eq!(drawing.get("aria-labelledby"), told.join(" "));
    }
}

/// Catches two elements of one name, of which a browser finds the first alone.
#[test]
fn no_name_stands_twice() {
    let book = packed("steps", "html-ids");
    let asked = "--currency 7 --band 4 --side long --limit 600";
    let words: Vec<&str> = ["html", &book, "-o", "-"]
        .into_iter()
        .chain(asked.split(' '))
        .collect();
    let tree = parse(&prints(&words));
    let nodes = tree.all().into_iter();
    let mut ids: Vec<&String> = nodes.filter_map(|node| node.attributes.get("id")).collect();
    let count = ids.len();
    ids.sort();
    ids.dedup();
    assert_eq!(ids.len(), count);
    for shape in tree.classed("matched") {
        let fill = shape.get("fill").strip_prefix("url(#").unwrap();
        let id = fill.strip_suffix(')').unwrap().to_string();
        assert!(ids.contains(&&id), "{id}");
    }
}

/// Catches a name that is written as it is, or with the folder that the book is in.
#[test]
fn names_are_escaped() {
    let name = "html <b>&\"'amp;.book";
    let path = temporary(name);
    fs::copy(packed("keyed", "html-name"), &path).unwrap();
    let tree = parse(&prints(&["html", &path, "-o", "-"]));
    let title = format!("Market risk of {name}");
    assert_eq!(tree.named("title")[0].text, title);
    assert_eq!(tree.named("h1")[0].text, title);
}

/// Catches a table that is not told of, or told of where it is document 01's.
#[test]
fn another_table_is_shown() {
    let book = packed("steps", "html-table");
    let table = sample("steps").replace(".csv", ".table");
    let tree = parse(&prints(&["html", &book, "-o", "-", "--table", &table]));
    let told: Vec<&str> = tree
        .classed("note")
        .iter()
        .map(|note| note.text.as_str())
        .collect();
    assert_eq!(told[1], "under steps.table, not document 01's table:");
    let printed = prints(&["report", &book, "--table", &table]);
    let lines: Vec<&str> = printed.lines().collect();
    assert_eq!(told[1..4], lines[..3]);
    let charges = tree.section("report").unwrap().cells("charges");
    let total = lines.last().unwrap().split_whitespace().last().unwrap();
    assert_eq!(charges[6][1], total);
    let tree = parse(&prints(&["html", &book, "-o", "-"]));
    assert!(tree.classed("note")[1]
        .text
        .starts_with("under document 01's table"));
}

/// Catches a refused book without a page, with another explanation, or with status 0.
#[test]
fn a_refused_book_is_explained_on_its_page() {
    let book = temporary("html-refused.book");
    let mut bytes = fs::read(packed("keyed", "html-refused")).unwrap();
    bytes[8 + 16] = 32;
    fs::write(&book, &bytes).unwrap();
    let page = temporary("html-refused.html");
    let _ = fs::remove_file(&page);
    let told = fails(1, &["html", &book, "-o", &page]);
    assert_eq!(told, fails(1, &["report", &book]));
    let tree = parse(&fs::read_to_string(&page).unwrap());
    let refused = tree.section("refused").unwrap();
    let head = "refused 4 row 1: group over 31";
    assert_eq!(refused.classed("refused")[0].text, head);
    let facts = refused.cells("facts");
    let found = "interest row: group 32, kind government, days 1,080, coupon 800, issue 0, long 0, short 30";
    let right = [
        ["number", "4"],
        ["reason", "group over 31"],
        ["row, counted from 0", "1"],
        ["what was found", found],
        ["what is allowed", "group may be 0 to 31"],
    ];
    assert_eq!(facts, right.map(|fact| fact.map(String::from).to_vec()));
    assert_eq!(tree.named("section").len(), 1);
    // A file without rows has no row to tell of.
    fs::write(&book, [1, 2]).unwrap();
    let output = run(&["html", &book, "-o", "-"]);
    assert_eq!(output.status.code(), Some(1));
    let tree = parse(&String::from_utf8(output.stdout).unwrap());
    let facts = tree.section("refused").unwrap().cells("facts");
    let right = [
        ["number", "1"],
        ["reason", "fewer than 8 bytes"],
        ["what was found", "the file has 2 bytes"],
        [
            "what is allowed",
            "the text of a book begins with the line class,group,kind,days,coupon,issue,long,short",
        ],
    ];
    assert_eq!(facts, right.map(|fact| fact.map(String::from).to_vec()));
}

/// Catches a row that is told of text, and another line than the row's.
#[test]
fn a_refused_text_is_explained_by_its_line() {
    let text = temporary("html-refused.csv");
    let header = "class,group,kind,days,coupon,issue,long,short";
    fs::write(&text, format!("{header}\n\nfx,32,none,0,0,0,5,0\n")).unwrap();
    let output = run(&["html", &text, "-o", "-"]);
    assert_eq!(output.status.code(), Some(1));
    let tree = parse(&String::from_utf8(output.stdout).unwrap());
    let refused = tree.section("refused").unwrap();
    let head = "line 3: refused 4: group over 31";
    assert_eq!(refused.classed("refused")[0].text, head);
    assert_eq!(refused.cells("facts")[2], ["line", "3"]);
}

/// Catches a page over its own book, and options that are passed over.
#[test]
fn wrong_command_lines_are_told() {
    let book = packed("keyed", "html-wrong");
    let page = temporary("html-wrong.html");
    let _ = fs::remove_file(&page);
    let long = |more: &str| -> i32 {
        let words = ["html", &book, "-o", &page].into_iter();
        let words: Vec<&str> = words.chain(more.split_whitespace()).collect();
        run(&words).status.code().unwrap()
    };
    assert!(fails(2, &["html", &book]).contains("html: -o FILE is missing"));
    assert!(fails(2, &["html", &book, "-o", &book]).contains("are one file"));
    assert_eq!(long("--currency 7"), 2);
    assert_eq!(long("--limit 500"), 2);
    assert_eq!(long("--currency 7 --band 5 --side short"), 2);
    assert_eq!(long("--currency 7 --band 15 --side short --limit 500"), 1);
    assert_eq!(long("--currency 32 --band 5 --side short --limit 500"), 1);
    assert!(!fs::exists(&page).unwrap());
    assert_eq!(long("--currency 7 --band 5 --side short --limit 500"), 0);
    assert!(fs::exists(&page).unwrap());
}
