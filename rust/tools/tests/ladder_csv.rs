//! CSV text of ladders, held to their JSON, and the reader of that to what is none.

mod again;
mod common;
mod figures;
mod pocket;
mod stored;

use figures::{csv, json, read, Value};
use std::collections::BTreeMap;
use stored::{all, Print};

/// The fields of an object as cells of a line.
fn cells(of: &Value) -> BTreeMap<String, String> {
    let cell = |name: &str| match of.get(name) {
        Value::Text(text) => (name.into(), text.clone()),
        value => (name.into(), value.number().to_string()),
    };
    of.names().into_iter().map(cell).collect()
}

/// Catches a figure of JSON that CSV text has not, in another column or of another ladder, and a line more.
#[test]
fn ladders_as_csv_have_the_figures_of_the_json() {
    for stored in all() {
        let (class, of) = match stored.print {
            Print::Currency(_) => ("interest", "currency"),
            Print::Commodity(_) => ("commodity", "commodity"),
            _ => continue,
        };
        let read = read(&stored.printed_with(&["--json"]));
        let ladder = &read.get("ladders").list()[0];
        let group = ladder.get(of).number().to_string();
        let charge = ladder.get("charge_mils").number().to_string();
        let charge =
            [("step", "charge"), ("mils", &charge)].map(|(name, cell)| (name.into(), cell.into()));
        let bands = ladder.get("bands").list().iter().map(cells);
        let steps = ladder.get("steps").list().iter().map(cells);
        let expected = bands
            .chain(steps)
            .chain([BTreeMap::from(charge)])
            .map(|mut line| {
                line.insert("class".into(), class.into());
                line.insert("group".into(), group.clone());
                line
            });
        let lines = csv(&stored.printed_with(&["--csv"]));
        assert_eq!(lines, expected.collect::<Vec<_>>(), "{}", stored.name());
    }
}

/// Catches a reader that takes what is no JSON, and by which every output would seem right.
#[test]
fn what_is_no_json_is_seen() {
    let odd = r#" {"a" : [1, -20, "\"\\\n\u00e9€", {}], "b": []} "#;
    let read = json(odd).unwrap();
    assert_eq!(read.names(), ["a", "b"]);
    assert_eq!(read.get("a").list()[2].text(), "\"\\\né€");
    for wrong in [
        "",
        "{",
        "[1,]",
        "[1 2]",
        "{\"a\"}",
        "{\"a\":1,}",
        "{a:1}",
        "[01]",
        "[1.5]",
        "[-]",
        "1 2",
        "\"a",
        "\"\n\"",
        "\"\\x\"",
        "[--1]",
    ] {
        assert!(json(wrong).is_err(), "{wrong}");
    }
}
