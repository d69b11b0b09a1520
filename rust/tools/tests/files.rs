//! Files as a user can lose them: full disks, an output over its input, odd names.

mod common;

use common::{packed, prints, sample, temporary};
use std::ffi::OsStr;
use std::fs::{self, File, OpenOptions, Permissions};
use std::os::unix::ffi::OsStrExt;
use std::os::unix::fs::{symlink, FileTypeExt, PermissionsExt};
use std::process::{Command, Output};

/// A new folder of this test run, with a sample and its book.
fn folder(name: &str) -> String {
    let folder = temporary(name);
    let _ = fs::remove_dir_all(&folder);
    fs::create_dir_all(&folder).unwrap();
    fs::copy(sample("keyed"), format!("{folder}/x.csv")).unwrap();
    fs::copy(packed("keyed", name), format!("{folder}/x.book")).unwrap();
    folder
}

/// Puts options into a folder, as text and as bytes.
fn with_options(folder: &str) {
    let (text, table) = (format!("{folder}/o.csv"), format!("{folder}/o.table"));
    fs::copy(sample("options"), &text).unwrap();
    prints(&["pack", "--options", &text, &table]);
}

/// The command in a folder.
fn tool(folder: &str, words: &str) -> Command {
    let mut command = Command::new(env!("CARGO_BIN_EXE_market-risk"));
    command.current_dir(folder).args(words.split(' '));
    command
}

/// The error of a run, which must fail with this status.
fn error(status: i32, output: Output) -> String {
    let error = String::from_utf8_lossy(&output.stderr).into_owned();
    assert_eq!(output.status.code(), Some(status), "{error}");
    error
}

/// A script that has the command as $1.
fn script(folder: &str, text: &str) -> Output {
    let mut shell = Command::new("sh");
    let words = ["-c", text, "sh", env!("CARGO_BIN_EXE_market-risk")];
    shell.current_dir(folder).args(words).output().unwrap()
}

/// What a folder holds, sorted.
fn names(folder: &str) -> Vec<String> {
    let name = |entry: fs::DirEntry| entry.file_name().into_string().unwrap();
    let entries = fs::read_dir(folder).unwrap();
    let mut names: Vec<String> = entries.map(|entry| name(entry.unwrap())).collect();
    names.sort_unstable();
    names
}

/// Catches a write to standard output that is not flushed or not checked: the bytes are
/// lost on a full disk and the status says that all is well.
#[test]
fn lost_output_is_an_error() {
    let folder = folder("full");
    fs::write(format!("{folder}/bad.book"), [7]).unwrap();
    with_options(&folder);
    for words in [
        "pack x.csv -",
        "unpack x.book -",
        "join x.book x.book -",
        "net x.book -",
        "net x.book net.book --comparisons",
        "shortest bad.book -o shown.book",
        "dearest --rows 3 --most 100",
        "dearest --rows 3 --most 100 -o dear.book",
        "options o.table",
        "options o.csv -o delta.book",
        "pack --options o.csv -",
        "unpack --options o.table -",
        "report x.book",
        "report x.book --currencies",
        "ladder x.book --currency 7",
        "least-trade x.book --currency 7 --band 5 --side short --limit 420",
        "least-trade x.book --currency 7 --band 5 --side short --limit 0",
        "table",
        "table --bytes",
        "compare --count 1",
        "bench --rounds 1",
        "--help",
        "pack --help",
    ] {
        let full = OpenOptions::new().write(true).open("/dev/full").unwrap();
        let output = tool(&folder, words).stdout(full).output().unwrap();
        let told = error(2, output);
        assert!(
            told.contains("standard output: No space"),
            "{words}: {told}"
        );
    }
}

/// Catches a message, or a status that is not that of the command, where the reader of a pipe is
/// gone: it had what it wanted.
#[test]
fn a_pipe_whose_reader_is_gone_is_no_error() {
    let folder = folder("pipe");
    for (status, words) in [
        (0, "unpack x.book -"),
        (0, "report x.book"),
        (0, "ladder x.book --currency 7"),
        (0, "pack x.csv /dev/stdout"),
        (0, "dearest --rows 3 --most 100 -o dear.book"),
        (0, "--help"),
        (0, "help pack"),
        (0, "--version"),
        (1, "shortest x.book -o shown.book"),
    ] {
        let (reader, writer) = std::io::pipe().unwrap();
        drop(reader);
        let output = tool(&folder, words).stdout(writer).output().unwrap();
        let told = error(status, output);
        assert_eq!(told.is_empty(), status == 0, "{words}: {told}");
    }
    // What is written elsewhere is not lost with the pipe: three rows of 16 bytes and the counts.
    assert_eq!(
        fs::metadata(format!("{folder}/dear.book")).unwrap().len(),
        56
    );
}

/// Catches a panic, with its own status, where the message itself cannot be written.
#[test]
fn the_status_stands_without_the_message() {
    let folder = folder("silent");
    let full = OpenOptions::new().write(true).open("/dev/full").unwrap();
    let mut refused = tool(&folder, "small-bank x.csv");
    assert_eq!(refused.stderr(full).status().unwrap().code(), Some(1));
}

/// Catches a command that destroys its input: by the same name, another path, a link of
/// either kind, or through standard input and output.
#[test]
fn an_output_over_an_input_is_refused() {
    let folder = folder("over");
    let inside = |name: &str| format!("{folder}/{name}");
    symlink("x.csv", inside("soft.csv")).unwrap();
    fs::hard_link(inside("x.csv"), inside("hard.csv")).unwrap();
    fs::copy(inside("x.book"), inside("y.book")).unwrap();
    with_options(&folder);
    let names = ["x.csv", "x.book", "y.book", "o.csv", "o.table"];
    let read = || names.map(|name| fs::read(inside(name)).unwrap());
    let before = read();
    for words in [
        "pack x.csv x.csv",
        "pack x.csv ./../over/x.csv",
        "pack x.csv soft.csv",
        "pack soft.csv x.csv",
        "pack x.csv hard.csv",
        "unpack x.book x.book",
        "join x.book y.book x.book",
        "join x.book y.book y.book",
        "join x.book x.book x.book",
        "net x.book x.book",
        "net --offset x.book x.book",
        "offset x.book x.book",
        "shortest x.book -o x.book",
        "options o.table -o o.table",
        "options o.csv -o ./o.csv",
        "pack --options o.csv o.csv",
        "unpack --options o.table o.table",
        "table x.csv --out x.csv",
        "table soft.csv --out x.csv",
    ] {
        let told = error(2, tool(&folder, words).output().unwrap());
        assert!(told.contains("are one file"), "{words}: {told}");
        assert_eq!(read(), before, "{words}");
    }
    for text in [
        "pack - x.csv <x.csv",
        "pack x.csv - >>x.csv",
        "net - x.book <x.book",
        "offset - x.book <x.book",
        "shortest - -o x.book <x.book",
        "options - -o o.table <o.table",
    ] {
        let told = error(2, script(&folder, &format!("\"$1\" {text}")));
        assert!(told.contains("are one file"), "{text}: {told}");
        assert_eq!(read(), before, "{text}");
    }
    // Two inputs may be one file, and an old output may be replaced.
    prints(&[
        "join",
        &inside("x.book"),
        &inside("x.book"),
        &inside("y.book"),
    ]);
}

/// Catches a write in place: a disk that fills up leaves a half book, or the old one
/// gone. The limit is of one block, the book has 64,008 bytes and that of the deltas 16,008.
#[test]
fn a_failed_write_leaves_no_half_file() {
    let folder = folder("half");
    let header = "class,group,right,kind,amount,delta,gamma,vega,volatility,days";
    let rows = "fx,1,sold put,none,5,0001,1,1,0001,0\n".repeat(1_000);
    fs::write(format!("{folder}/big.options"), format!("{header}\n{rows}")).unwrap();
    let rows = "fx,1,none,0,0,0,5,0\n".repeat(4_000);
    let header = "class,group,kind,days,coupon,issue,long,short";
    fs::write(format!("{folder}/big.csv"), format!("{header}\n{rows}")).unwrap();
    let old = fs::read(format!("{folder}/x.book")).unwrap();
    for (words, to) in [
        ("pack big.csv", "x.book"),
        ("pack big.csv", "new.book"),
        ("options big.options -o", "x.book"),
        ("options big.options -o", "new.book"),
    ] {
        let limited = format!("trap '' XFSZ; ulimit -f 1; \"$1\" {words} {to}");
        let run = script(&folder, &limited);
        assert!(run.stdout.is_empty(), "{words}");
        let told = error(2, run);
        assert!(told.contains(&format!("{to}: File too large")), "{told}");
        let kept = ["big.csv", "big.options", "x.book", "x.csv"];
        assert_eq!(names(&folder), kept);
        assert_eq!(fs::read(format!("{folder}/x.book")).unwrap(), old);
    }
}

/// Catches a new file in the place of a link or a pipe, and other permissions.
#[test]
fn an_output_keeps_what_it_is() {
    let folder = folder("kept");
    let inside = |name: &str| format!("{folder}/{name}");
    let book = fs::read(inside("x.book")).unwrap();
    fs::write(inside("real.book"), "old").unwrap();
    fs::set_permissions(inside("real.book"), Permissions::from_mode(0o640)).unwrap();
    symlink("real.book", inside("link.book")).unwrap();
    symlink("later.book", inside("dangling.book")).unwrap();
    for (link, real) in [("link", "real"), ("dangling", "later")] {
        prints(&["pack", &inside("x.csv"), &inside(&format!("{link}.book"))]);
        assert!(fs::read_link(inside(&format!("{link}.book"))).is_ok());
        assert_eq!(fs::read(inside(&format!("{real}.book"))).unwrap(), book);
    }
    let mode = fs::metadata(inside("real.book")).unwrap().permissions();
    assert_eq!(mode.mode() & 0o777, 0o640);
    let piped = "mkfifo pipe && { cat pipe & } && \"$1\" pack x.csv pipe && wait";
    assert_eq!(script(&folder, piped).stdout, book);
    let pipe = fs::metadata(inside("pipe")).unwrap();
    assert!(pipe.file_type().is_fifo());
    // Written where standard output stands, not to a new file of that name.
    script(&folder, "{ echo 1; \"$1\" pack x.csv /dev/stdout; } >out");
    assert_eq!(
        fs::read(inside("out")).unwrap(),
        [b"1\n", &book[..]].concat()
    );
}

/// Catches arguments that are taken to be UTF-8, which panics with status 101.
#[test]
fn names_may_be_any_bytes() {
    let folder = folder("names");
    let name = OsStr::from_bytes(b"caf\xe9.book");
    prints(&["pack", &sample("keyed"), &format!("{folder}/x.book")]);
    File::create(std::path::Path::new(&folder).join(name)).unwrap();
    let run = |command: &str| tool(&folder, command).arg(name).output().unwrap();
    assert!(error(1, run("report")).contains("caf\u{fffd}.book: refused 1"));
    assert!(error(1, run("options")).contains("caf\u{fffd}.book: refused 16"));
    let trade = |file: &str, more: &str| {
        let asked = "--currency 7 --band 5 --side short --limit";
        run(&format!("least-trade {file}{asked}{more}"))
    };
    assert!(error(1, trade("", " 420")).contains("caf\u{fffd}.book: refused 1"));
    let told = error(2, trade("x.book ", ""));
    assert!(told.contains("--limit is 'caf\u{fffd}.book', not currency units"));
    let told = error(2, trade("x.book ", " 420 --side"));
    assert!(told.contains("--side is 'caf\u{fffd}.book', not long or short"));
    let refused = "caf\u{fffd}.book: refused 18";
    assert!(error(1, run("table")).contains(refused));
    assert!(error(1, run("report x.book --table")).contains(refused));
    assert!(error(1, trade("x.book ", " 420 --table")).contains(refused));
    assert!(run("table --bytes --out").status.success());
    assert!(run("report x.book --table").status.success());
    assert!(run("pack x.csv").status.success());
    assert!(run("report").status.success());
    assert!(error(2, run("report x.book --all")).contains("no option '--all'"));
    assert!(error(2, run("compare --seed")).contains("not a whole number"));
    assert!(error(2, run("vectors --check")).contains("caf\u{fffd}.book"));
    let alone = Command::new(env!("CARGO_BIN_EXE_market-risk"))
        .arg(name)
        .output();
    assert!(error(2, alone.unwrap()).contains("no command 'caf\u{fffd}.book'"));
}
