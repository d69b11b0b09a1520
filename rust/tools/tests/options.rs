//! `options` as a user meets it: the figures, the book that is written, and both forms of a table.

mod common;
mod option_tables;

use common::{prints, sample, temporary, unpacked};
use option_tables::{csv, figure, packed_options, part, piped};
use std::fs;

/// C.4, 50 times: 25,000 at a delta of 0.7210 are 18,025, of which 15%; half of 25,000 x 170 x 225; and
/// 84 x 2,000 x 2,500.
const C4: &str = "commodity,4,sold call,none,25000,7210,170,84,2000,1081";

/// Catches a figure in another unit or place.
#[test]
fn the_whole_text_of_c_4_by_hand() {
    let table = csv("c4", &[C4]);
    let text = "\
the book of the deltas, amounts in thousands
class      group  kind   days  long   short
commodity      4  none  1,081     0  18,025

gamma and vega, in currency units
class      group        gamma         vega
equity       all        0.000        0.000
fx           all        0.000        0.000
commodity      4  478,125.000  420,000.000
commodity    all  478,125.000  420,000.000

the charges of the book, in currency units
interest specific          0.000
interest general           0.000
equity specific            0.000
equity general             0.000
foreign exchange           0.000
commodity          2,703,750.000
total              2,703,750.000

the whole charge: gamma and vega are in none of the charges of the book
gamma    478,125.000  = 0.000 (equity) + 0.000 (fx) + 478,125.000 (commodity)
vega     420,000.000  = 0.000 (equity) + 0.000 (fx) + 420,000.000 (commodity)
whole  3,601,875.000  = 2,703,750.000 (book) + 478,125.000 (gamma) + 420,000.000 (vega)
";
    assert_eq!(prints(&["options", &table]), text);
    let out = temporary("c4.deltas");
    let written = prints(&["options", &table, "-o", &out]);
    assert_eq!(written, format!("{text}{out}: 24 bytes\n"));
    assert_eq!(unpacked(&out), ["commodity,4,none,1081,0,0,0,18025"]);
    assert_eq!(prints(&["report", &out]).trim_end(), part(text, 2));
}

/// Catches a put that stands or counts as a call does, and a move of another class: half of 1,000 x
/// 10 x 64 or 225, and 2 x 1,000 x 2,500.
#[test]
fn every_right_in_every_class() {
    for (class, kind, gamma) in [
        ("equity", "diversified", "320.000"),
        ("fx", "none", "320.000"),
        ("commodity", "none", "1,125.000"),
    ] {
        for (right, sides, gamma) in [
            ("bought call", "500,0", "0.000"),
            ("bought put", "0,500", "0.000"),
            ("sold call", "0,500", gamma),
            ("sold put", "500,0", gamma),
        ] {
            let name = format!("{class}-{}", right.replace(' ', "-"));
            let line = format!("{class},7,{right},{kind},1000,5000,10,2,1000,0");
            let out = temporary(&format!("{name}.deltas"));
            let text = prints(&["options", &csv(&name, &[&line]), "-o", &out]);
            let row = format!("{class},7,{kind},0,0,0,{sides}");
            assert_eq!(unpacked(&out), [row]);
            for group in ["7", "all"] {
                let line = format!("{class} {group}");
                assert_eq!(figure(&text, 1, &line), [gamma, "5,000.000"], "{name}");
            }
        }
    }
}

/// Sold and bought options meet in a class and group, whatever their kind, and nowhere else.
/// Market 3: 1,000 x 10 less 400 x 10, times 32; 2 x 1,000 less 3 x 1,000, times 2,500. Market 4 is
/// bought, and commodity 3 has an odd number of half mils: 1 x 3 x 225 / 2.
#[test]
fn underlyings_by_hand() {
    let table = csv(
        "underlyings",
        &[
            "commodity,3,sold put,none,1,0001,3,1,0001,0",
            "equity,3,sold call,ordinary,1000,5000,10,2,1000,0",
            "equity,4,bought call,ordinary,1000,5000,999,1,1000,0",
            "equity,3,bought put,index,400,5000,10,3,1000,0",
            "commodity,0,sold put,none,1,0,2,0,0001,0",
        ],
    );
    let out = temporary("underlyings.deltas");
    let text = prints(&["options", &table, "-o", &out]);
    let rows = [
        "equity,3,ordinary,0,0,0,0,500",
        "equity,4,ordinary,0,0,0,500,0",
        "equity,3,index,0,0,0,0,200",
        "commodity,3,none,0,0,0,1,0",
    ];
    assert_eq!(unpacked(&out), rows);
    for (line, expected) in [
        ("equity 3", ["192.000", "2,500.000"]),
        ("equity 4", ["0.000", "2,500.000"]),
        ("equity all", ["192.000", "5,000.000"]),
        ("fx all", ["0.000", "0.000"]),
        ("commodity 0", ["0.225", "0.000"]),
        ("commodity 3", ["0.338", "2.500"]),
        ("commodity all", ["0.563", "2.500"]),
    ] {
        assert_eq!(figure(&text, 1, line), expected, "{line}");
    }
    // Shares 8% of 1,000, the index 2% of 200; 8% of the nets of 700 and 500; 18.6% of 1.
    let charges = ["84,000.000", "96,000.000", "0.000", "186.000"];
    let names = [
        "equity specific",
        "equity general",
        "foreign exchange",
        "commodity",
    ];
    for (name, charge) in names.iter().zip(charges) {
        assert_eq!(figure(&text, 2, name), [charge], "{name}");
    }
    let whole = "\nwhole  185,381.063  = 180,186.000 (book) + 192.563 (gamma) + 5,002.500 (vega)\n";
    assert!(text.contains(whole), "{text}");
}

/// Catches bytes and text that are not told apart, by a file or by standard input.
#[test]
fn both_forms_print_the_same() {
    let text = prints(&["options", &sample("options")]);
    let bytes = packed_options("forms");
    assert_eq!(prints(&["options", &bytes]), text);
    for file in [sample("options"), bytes] {
        assert_eq!(piped(&["options", "-"], &file), text);
    }
    let empty = temporary("no.options");
    fs::write(&empty, [0, 0]).unwrap();
    let none = prints(&["options", &empty]);
    assert_eq!(prints(&["options", &csv("none", &[])]), none);
    assert!(none.contains("\nwhole  0.000  = "), "{none}");
}

/// As many options as there can be, each as large as it can be: sums that pass 32 bits and more.
#[test]
fn the_largest_table() {
    let line = "commodity,31,sold call,none,1000000,10000,65535,65535,65535,36000";
    let table = csv("largest", &vec![line; 1_000]);
    let out = temporary("largest.deltas");
    let text = prints(&["options", &table, "-o", &out]);
    // 10^6 x 65,535 x 225 / 2 x 1,000 mils, 65,535 x 65,535 x 2,500 x 1,000 mils; 15% of 10^9 thousands.
    let greeks = ["7,372,687,500,000.000", "10,737,090,562,500.000"];
    assert_eq!(figure(&text, 1, "commodity 31"), greeks);
    assert_eq!(figure(&text, 2, "commodity"), ["150,000,000,000.000"]);
    assert!(text.ends_with(&format!("{out}: 16,008 bytes\n")));
    let rows = vec!["commodity,31,none,36000,0,0,0,1000000"; 1_000];
    assert_eq!(unpacked(&out), rows);
}

/// Text into bytes and back letter by letter, and bytes into text and back byte by byte.
#[test]
fn tables_come_back_as_they_were() {
    let (bytes, text) = (packed_options("back"), temporary("back.csv"));
    prints(&["unpack", "--options", &bytes, &text]);
    let expected = fs::read_to_string(sample("options")).unwrap();
    assert_eq!(fs::read_to_string(&text).unwrap(), expected);
    assert_eq!(prints(&["unpack", "--options", &bytes, "-"]), expected);
    // Any bytes that agree with their count, though no library would take them.
    let odd = temporary("odd.options");
    let mut table = vec![9, 0];
    table.extend((0..9 * 18).map(|at: u32| (at * at + 7 * at) as u8));
    fs::write(&odd, &table).unwrap();
    let (text, again) = (temporary("odd.csv"), temporary("odd.again"));
    prints(&["unpack", &odd, "--options", &text]);
    prints(&["pack", "--options", &text, &again, "--unchecked"]);
    assert_eq!(fs::read(&again).unwrap(), table);
}
