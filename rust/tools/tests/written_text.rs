//! Books that commands write, packed or as text, by the name of the file or by `--csv`.

mod common;

use common::{prints_in, sample, temporary};
use std::collections::BTreeMap;
use std::path::PathBuf;
use std::{fs, process::Command};

/// The first line of text.
const HEADER: &str = "class,group,kind,days,coupon,issue,long,short";

/// A new folder of this test run with some samples, and a book whose last row is 40,000 days long.
fn folder(name: &str) -> String {
    let folder = temporary(name);
    let _ = fs::remove_dir_all(&folder);
    fs::create_dir_all(&folder).unwrap();
    for name in ["mixed", "netting", "offsetting", "options"] {
        fs::copy(sample(name), format!("{folder}/{name}.csv")).unwrap();
    }
    let mixed = fs::read_to_string(sample("mixed")).unwrap();
    let long = mixed.replace(",400,", ",40000,");
    fs::write(format!("{folder}/long.csv"), long).unwrap();
    folder
}

/// What a command line prints in a folder, where it must succeed.
fn prints(folder: &str, line: &str) -> String {
    prints_in(folder, &line.split(' ').collect::<Vec<_>>())
}

/// The files of a folder, by name.
fn files(folder: &str) -> BTreeMap<PathBuf, Vec<u8>> {
    let file = |path: PathBuf| (path.clone(), fs::read(path).unwrap());
    let entries = fs::read_dir(folder).unwrap();
    entries.map(|entry| file(entry.unwrap().path())).collect()
}

/// What is told of a command line, which must begin so: it must fail with this status, print nothing and
/// leave the folder as it is.
fn refused(status: i32, folder: &str, line: &str, begin: &str) -> String {
    let before = files(folder);
    let mut command = Command::new(env!("CARGO_BIN_EXE_market-risk"));
    let command = command.current_dir(folder).args(line.split(' '));
    let output = command.output().unwrap();
    assert_eq!(output.status.code(), Some(status), "{line}");
    assert_eq!(output.stdout, b"", "{line}");
    assert!(files(folder) == before, "{line}");
    let told = String::from_utf8(output.stderr).unwrap();
    let begin = format!("market-risk: {begin}");
    assert!(told.starts_with(&begin), "{line}: {told}");
    told
}

/// The commands that write a book, and whether it may go to standard output.
const COMMANDS: [(&str, bool); 7] = [
    ("join mixed.csv netting.csv OUT", true),
    ("net netting.csv OUT", true),
    ("net --offset offsetting.csv OUT", true),
    ("offset offsetting.csv OUT", true),
    ("shortest long.csv -o OUT", false),
    ("dearest --rows 3 --most 100 -o OUT", false),
    ("options options.csv -o OUT", false),
];

/// Catches a command that does not look at the name or at `--csv`, one that looks at a part of the name
/// or at its case, packed books that become text, and text of other rows.
#[test]
fn each_command_writes_text_where_it_is_asked_for() {
    for (at, (line, standard)) in COMMANDS.into_iter().enumerate() {
        let folder = folder(&format!("written-{at}"));
        let read = |name: &str| fs::read(format!("{folder}/{name}")).unwrap();
        let to = |name: &str, more: &str| line.replace("OUT", name) + more;
        prints(&folder, &to("x.book", ""));
        let (packed, text) = (read("x.book"), prints(&folder, "unpack x.book -"));
        let rows = text.lines().count() - 1;
        assert!(rows > 0 && packed.len() == 8 + 16 * rows, "{line}");
        for name in ["csv", "xcsv", "x.csv.book", "x.csv_"] {
            prints(&folder, &to(name, ""));
            assert_eq!(read(name), packed, "{line}: {name}");
        }
        let named = ["x.csv", "x.CSV", "x.Csv", ".csv"].map(|name| (name, ""));
        let asked = ["y.book", "y.csv", "y"].map(|name| (name, " --csv"));
        for (name, more) in named.into_iter().chain(asked) {
            prints(&folder, &to(name, more));
            assert_eq!(read(name), text.as_bytes(), "{line}: {name}{more}");
        }
        // Unchecked, for one of them shows a refusal.
        prints(&folder, "pack --unchecked x.csv again.book");
        assert_eq!(read("again.book"), packed, "{line}");
        for name in ["-", "/dev/stdout"].iter().filter(|_| standard) {
            assert_eq!(prints(&folder, &to(name, " --csv")), text, "{line}");
        }
    }
}

/// Catches a line that tells the length of the packed book where text is written.
#[test]
fn the_length_told_is_that_of_the_file() {
    let folder = folder("written-length");
    for (line, packed) in [
        ("dearest --rows 3 --most 100", "56 bytes"),
        ("options options.csv", "152 bytes"),
        ("shortest long.csv", "24 of 200 bytes"),
    ] {
        let printed = prints(&folder, &format!("{line} -o x.book"));
        let last = format!("\nx.book: {packed}\n");
        let before = printed.strip_suffix(&last).expect(&printed);
        for (name, more) in [("x.csv", ""), ("y.book", " --csv")] {
            let text = prints(&folder, &format!("{line} -o {name}{more}"));
            let length = fs::read(format!("{folder}/{name}")).unwrap().len();
            assert_eq!(text, format!("{before}\n{name}: {length} bytes\n"));
        }
    }
}

/// Rows that are refused, and their numbers.
const REFUSED: [(u64, &str); 7] = [
    (4, "fx,255,none,0,0,0,5,0"),
    (5, "equity,1,4,0,0,0,5,0"),
    (6, "commodity,4,none,40000,0,402,0,300"),
    (7, "interest,1,other,90,65535,65535,5,0"),
    (8, "fx,1,none,0,0,0,0,0"),
    (9, "fx,1,none,0,0,0,0,4294967295"),
    (15, "interest,1,floating,361,2880,0,5,0"),
];

/// Catches a refused row that is another as text, or that is not refused alike.
#[test]
fn a_refused_row_is_shown_as_text() {
    let folder = folder("written-row");
    for (number, row) in REFUSED {
        let lines = [HEADER, "interest,7,other,90,800,0,5,0", row, ""].join("\n");
        fs::write(format!("{folder}/bad.csv"), lines).unwrap();
        prints(&folder, "shortest bad.csv -o shown.csv");
        let shown = fs::read_to_string(format!("{folder}/shown.csv")).unwrap();
        assert_eq!(shown, format!("{HEADER}\n{row}\n"));
        let begin = format!("shown.csv: line 2: refused {number}: ");
        let told = refused(1, &folder, "report shown.csv", &begin);
        let alike = told.replace("shown.csv: line 2", "bad.csv: line 3");
        assert_eq!(refused(1, &folder, "report bad.csv", ""), alike);
    }
}

/// Catches text of no rows, which would show nothing or be accepted, and a message without what to do.
#[test]
fn a_refusal_without_rows_is_no_text() {
    let folder = folder("written-no-rows");
    let name = "name one that does not end in .csv\n";
    for (number, bytes) in [(1, &[7; 7][..]), (2, &[0x10; 8]), (3, &[0; 9])] {
        fs::write(format!("{folder}/bad.book"), bytes).unwrap();
        let begin = format!("shortest: a file that shows refusal {number} has no rows and cannot");
        for (to, instead) in [
            ("shown.csv", name.to_string()),
            ("shown.book --csv", "leave --csv out\n".into()),
            ("shown.CSV --csv", format!("leave --csv out, and {name}")),
        ] {
            let begin = format!("{begin} be text; {instead}");
            refused(2, &folder, &format!("shortest bad.book -o {to}"), &begin);
        }
    }
}

/// Catches bytes in a file that is named as text, a new one or an old one.
#[test]
fn packed_files_are_not_named_as_text() {
    let folder = folder("written-packed");
    for line in ["pack mixed.csv", "pack --options options.csv"] {
        for name in ["new.csv", "new.CSV", "long.csv"] {
            let begin = format!("pack: {name} would be bytes and no text; name a file that does ");
            refused(2, &folder, &format!("{line} {name}"), &begin);
            refused(2, &folder, &format!("{line} {name} --unchecked"), &begin);
        }
        prints(&folder, &format!("{line} csv"));
    }
}

/// Catches `--csv` that does nothing, and text that runs into a line on standard output.
#[test]
fn text_without_a_place_is_told() {
    let folder = folder("written-place");
    for line in [
        "dearest --csv --rows 3 --most 100",
        "options --csv options.csv",
        "shortest --csv long.csv",
    ] {
        let command = line.split(' ').next().unwrap();
        let begin = format!("{command}: --csv is of -o, which is not given\n");
        refused(2, &folder, line, &begin);
    }
    for (line, begin) in [
        ("net netting.csv - --comparisons", "net: --comparisons"),
        ("net netting.csv - --offset --pairs", "net: --pairs"),
        ("offset mixed.csv /dev/stdout --pairs", "offset: --pairs"),
    ] {
        let begin = format!("{begin} prints on standard output, where the ");
        refused(2, &folder, &format!("{line} --csv"), &begin);
    }
}
