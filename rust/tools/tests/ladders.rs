//! `ladder` of all groups, of those of one class and of one; hidden bands.

mod common;
mod figures;

use common::{fails, packed, prints};
use figures::json;

/// The samples that have ladders of several groups, with their currencies and their commodities.
const SEVERAL: [(&str, &[&str], &[&str]); 4] = [
    ("steps", &["7", "8", "9"], &["5"]),
    ("treasury", &["0", "1", "7", "31"], &[]),
    ("mixed", &["1", "2"], &["4"]),
    ("small-bank", &[], &["0", "4", "9"]),
];

/// Catches a ladder that is left out, is another's, or stands in another place.
#[test]
fn all_ladders_are_those_of_each_group() {
    for (name, currencies, commodities) in SEVERAL {
        let book = packed(name, "all-ladders");
        let one = |option: &str, groups: &[&str]| {
            let ladders = groups
                .iter()
                .map(|group| prints(&["ladder", &book, option, group]));
            ladders.collect::<Vec<_>>()
        };
        let currencies = one("--currency", currencies);
        let commodities = one("--commodity", commodities);
        let all = [currencies.clone(), commodities.clone()].concat();
        let none = |text: String, none: &str| {
            if text.is_empty() {
                format!("{none}\n")
            } else {
                text
            }
        };
        assert_eq!(prints(&["ladder", &book]), all.join("\n"), "{name}");
        assert_eq!(
            prints(&["ladder", &book, "--currencies"]),
            none(currencies.join("\n"), "no currency has interest rows")
        );
        assert_eq!(
            prints(&["ladder", &book, "--commodities"]),
            none(commodities.join("\n"), "no commodity has rows")
        );
        let read = json(&prints(&["ladder", &book, "--json"])).unwrap();
        assert_eq!(read.get("ladders").list().len(), all.len(), "{name}");
    }
}

/// Catches a book without ladders that prints nothing, or fails.
#[test]
fn a_book_without_ladders_says_so() {
    for name in ["empty", "equity", "fx"] {
        let book = packed(name, "no-ladders");
        let none = "no currency has interest rows, and no commodity has rows\n";
        assert_eq!(prints(&["ladder", &book]), none);
        let read = json(&prints(&["ladder", &book, "--json"])).unwrap();
        assert_eq!(read.get("ladders").list(), []);
        let text = prints(&["ladder", &book, "--csv"]);
        assert!(text.starts_with("class,group,step,band,"), "{text}");
        assert_eq!(text.lines().count(), 1);
    }
}

/// The lines of a table that are not hidden, and those of the whole one, must be the same but for the bands
/// that are empty.
fn hides(name: &str, option: &str, group: &str, shown: &[usize], bands: usize) {
    let book = packed(name, &format!("hidden{option}"));
    let words = ["ladder", &book, option, group, "--hide-empty"];
    let squeezed = |text: String| -> Vec<Vec<String>> {
        let parts = text.split("\n\n");
        let line = |line: &str| line.split_whitespace().collect::<Vec<_>>().join(" ");
        parts.map(|part| part.lines().map(line).collect()).collect()
    };
    let (whole, hidden) = (squeezed(prints(&words[..4])), squeezed(prints(&words)));
    assert_eq!(whole.len(), hidden.len());
    for (at, (whole, hidden)) in whole.iter().zip(&hidden).enumerate() {
        let expected = match at {
            1 | 2 => {
                assert_eq!(whole.len(), 1 + bands);
                let lines = shown.iter().map(|band| &whole[1 + band]);
                [&whole[0]].into_iter().chain(lines).cloned().collect()
            }
            _ => whole.clone(),
        };
        assert_eq!(*hidden, expected, "{name}: part {at}");
    }
    let read = json(&prints(&[&words[..], &["--json"]].concat())).unwrap();
    let listed = read.get("ladders").list()[0].get("bands").list();
    let listed = listed.iter().map(|band| band.get("band").number());
    assert!(listed.eq(shown.iter().map(|band| *band as i128)));
    let text = prints(&[&words[..], &["--csv"]].concat());
    let lines = figures::csv(&text).into_iter();
    let bands: Vec<String> = lines.filter_map(|mut line| line.remove("band")).collect();
    let shown: Vec<String> = shown.iter().map(usize::to_string).collect();
    assert_eq!(bands, shown);
}

/// Catches an empty band that is shown, and one that is hidden though it has longs, shorts or, of a
/// commodity, what is carried in. Band 0 of currency 9 weighs nothing and has a position.
#[test]
fn empty_bands_are_hidden_on_wish() {
    hides("keyed", "--currency", "7", &[3, 5, 9], 15);
    hides("steps", "--currency", "8", &[1, 2, 3, 4, 5, 7, 9], 15);
    hides("commodity", "--commodity", "5", &[2, 3, 4, 5, 6], 7);
    let book = packed("steps", "hidden-none");
    let text = prints(&["ladder", &book, "--currency", "9", "--hide-empty"]);
    assert_eq!(text, prints(&["ladder", &book, "--currency", "9"]));
    for option in ["--currency", "--commodity"] {
        let text = prints(&["ladder", &book, option, "30", "--hide-empty"]);
        assert!(text.contains("\n\nno band has positions\n\n"), "{text}");
    }
}

/// Catches two wishes of which one is not heeded.
#[test]
fn what_cannot_go_together_is_refused() {
    let book = packed("steps", "together");
    let table = format!("{}/../../samples/steps.table", env!("CARGO_MANIFEST_DIR"));
    for words in [
        &["--currency", "7", "--commodity", "5"][..],
        &["--currency", "7", "--currencies"],
        &["--currency", "7", "--commodities"],
        &["--currencies", "--commodities"],
        &["--commodity", "5", "--currencies"],
    ] {
        let told = fails(2, &[&["ladder", &book], words].concat());
        assert!(told.contains("--currencies and --commodities"), "{told}");
    }
    for words in [&["--commodity", "5"][..], &["--commodities"]] {
        let told = fails(2, &[&["ladder", &book, "--table", &table], words].concat());
        assert!(told.contains("takes no table"), "{told}");
    }
    for command in ["report", "ladder"] {
        let told = fails(2, &[command, &book, "--json", "--csv"]);
        assert!(told.contains("--json and --csv"), "{told}");
    }
}
