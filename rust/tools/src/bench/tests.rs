//! What could be wrong with a benchmark, done on purpose. No test depends on the time that
//! anything takes.

use super::cases::{cases, Case};
use super::fake::{answer, expected, World};
use super::issues::ALL_APART;
use super::show::{Line, Table};
use super::sides::{Call, CALLS};
use super::timed::{Clock, Timed};
use super::work::of_book;
use std::cell::Cell;
use std::time::Duration;

/// Catches a call that is left out: its result stays what it was before.
#[test]
fn a_call_that_is_not_run_is_told() {
    let world = World::default();
    assert!(Timed::new("lazy", world.fake(1, 1), expected()).is_err());
    let books = [vec![0; 8]];
    let nothing = of_book(&books, |_, _: &mut [u64; 1]| ());
    assert!(Timed::new("nothing", nothing, [answer(0)].into()).is_err());
}

/// Catches a call that runs when its result is compared and not when it is timed.
#[test]
fn a_call_that_stops_running_is_told() {
    let world = World::default();
    let clock: Clock = &|| Duration::from_nanos(world.now.get());
    let mut timed = Timed::new("lazy", world.fake(100_000, 6), expected()).unwrap();
    assert!(timed.round(clock).is_ok());
    assert!(timed.round(clock).is_err());
}

/// Catches a figure that is not the expected one.
#[test]
fn a_wrong_figure_is_told() {
    let books = [vec![0; 8]];
    let wrong = of_book(&books, |_, out: &mut [u64; 1]| out[0] = 8);
    assert!(Timed::new("wrong", wrong, [answer(7)].into()).is_err());
}

/// Catches a measurement that leaves runs out, and one divided by another number of runs.
#[test]
fn every_run_is_in_the_time() {
    let world = World::default();
    let clock: Clock = &|| Duration::from_nanos(world.now.get());
    let mut timed = world.timed("fake", 1_000);
    assert_eq!(world.runs.get(), 4);
    timed.settle(clock).unwrap();
    // 1, 2, 4 ... 256 runs: the first measurement of 200 microseconds has 256.
    assert_eq!(world.runs.get(), 4 + 511);
    timed.round(clock).unwrap();
    assert_eq!(world.runs.get(), 4 + 511 + 256);
    assert_eq!(timed.median(), 1_000.0);
}

/// Catches another time than the median of the rounds.
#[test]
fn the_median_is_the_middle_one() {
    let world = World::default();
    let mut timed = world.timed("fake", 0);
    for time in [9, 1, 5] {
        let asked = Cell::new(0);
        timed
            .round(&|| Duration::from_nanos(time * asked.replace(1)))
            .unwrap();
    }
    assert_eq!(timed.median(), 5.0);
}

/// Catches an inverted ratio, and a column under another's title.
#[test]
fn ratios_are_proved_by_other() {
    let world = World::default();
    let clock: Clock = &|| Duration::from_nanos(world.now.get());
    let line = Line {
        book: "any",
        rows: 4_000,
        timed: vec![world.timed("proved", 300), world.timed("other", 100)],
    };
    let mut table = Table {
        call: "call",
        lines: vec![line],
    };
    table.settle(clock).unwrap();
    table.round(clock).unwrap();
    let text = table.text();
    let lines: Vec<Vec<&str>> = text
        .lines()
        .map(|line| {
            line.split("  ")
                .filter(|cell| !cell.is_empty())
                .map(str::trim)
                .collect()
        })
        .collect();
    let titles = ["call", "rows", "proved ns", "other ns", "proved / other"];
    assert_eq!(lines[0], titles);
    assert_eq!(lines[1], ["any", "4,000", "300.0", "100.0", "3.00"]);
}

/// Catches a comparison's time that is of another line, of all rounds, or of the copy.
#[test]
fn a_comparison_s_time_is_that_of_its_line() {
    let world = World::default();
    let clock: Clock = &|| Duration::from_nanos(world.now.get());
    let line = |book: &'static str, times: [u64; 3]| Line {
        book,
        rows: 5,
        timed: vec![
            world.timed("proved", times[0]),
            world.timed("Rust", times[1]),
            world.timed("copy", times[2]),
        ],
    };
    let mut table = Table {
        call: "net",
        lines: vec![
            line("60 issues", [900, 800, 700]),
            line(ALL_APART, [30, 15, 7]),
        ],
    };
    table.settle(clock).unwrap();
    table.round(clock).unwrap();
    let text = table.text();
    // 5 rows of different issues take 10 comparisons.
    let last = "each of 10 comparisons, 5 rows of as many issues: proved 3.000 ns, Rust 1.500 ns";
    assert_eq!(text.lines().last(), Some(last));
    assert_eq!(text.lines().count(), 4);
    table.lines.truncate(1);
    assert!(!table.text().contains("comparisons"));
}

/// The first case that a call is timed on.
fn first<'a>(call: &Call, cases: &'a [Case]) -> &'a Case {
    let mut taken = cases.iter().filter(|case| call.takes(case));
    taken.next().expect("each call has a case")
}

/// The calls that write a book: from two books, from one, from none and from an option table.
const WRITES: [&str; 6] = [
    "join",
    "net",
    "offset",
    "net and offset",
    "dearest",
    "options",
];

/// Other calls that stand in a file of their own in plain Rust.
const OWN_FILES: [&str; 3] = ["small_bank", "shortest", "least_trade"];

/// Catches another call, or another's call, under a name: the compiler names what is run.
#[test]
fn each_name_times_its_own_call() {
    let functions = [
        "check",
        "charge",
        "interest_ladder",
        "commodity_ladder",
        "small_bank",
        "join",
        "net",
        "offset",
        "net_and_offset",
        "shortest",
        "dearest",
        "options",
        "least_trade",
    ];
    let cases = cases();
    for (call, function) in CALLS.iter().zip(functions) {
        assert_eq!(call.name.replace(' ', "_"), function);
        for side in (call.sides)(first(call, &cases)).unwrap() {
            let path = match side.name {
                "proved" => format!("market_risk::raw::{function}"),
                "Rust" if WRITES.contains(&call.name) || OWN_FILES.contains(&function) => {
                    format!("fast::{function}::{function}")
                }
                "Rust" => format!("fast::{function}"),
                "C" => format!("fast::expert::{function}"),
                "words" => "market_risk::bench::floors::sum_words".to_string(),
                _ if function.starts_with("net") || function == "dearest" => {
                    "market_risk::bench::floors::copy_book<5>".to_string()
                }
                _ if function == "offset" => "market_risk::bench::floors::copy_book<4>".to_string(),
                _ if function == "options" => {
                    "market_risk::bench::floors::copy_book<17>".to_string()
                }
                _ => "market_risk::bench::floors::copy".to_string(),
            };
            assert_eq!(side.path(), path);
        }
    }
}

/// Catches a side that is missing or stands in another's place: ratios are to the first.
#[test]
fn the_proved_library_comes_first() {
    let cases = cases();
    for call in &CALLS {
        let sides = (call.sides)(first(call, &cases)).unwrap();
        let names: Vec<&str> = sides.iter().map(|side| side.name).collect();
        let writes = WRITES.contains(&call.name);
        let floor = if writes { "copy" } else { "words" };
        let named = names.iter().copied().filter(|name| *name != "C");
        assert!(named.eq(["proved", "Rust", floor]), "{names:?}");
    }
}

/// Catches a line under another table that is missing where a call takes one, or that stands
/// where none is taken.
#[test]
fn calls_that_take_a_table_have_a_line_under_another() {
    let cases = cases();
    for call in &CALLS {
        let table = Table::new(call, &cases).unwrap();
        let own = |line: &&Line| line.book == "all classes, own table";
        let lines = table.lines.iter().filter(own).count();
        let takes = ["charge", "interest ladder"].contains(&call.name);
        assert_eq!(lines, usize::from(takes), "{}", call.name);
    }
}

/// Catches lines of small banks that are missing, or that stand in another call's table; and the
/// call timed on books that it refuses at once.
#[test]
fn the_small_bank_has_lines_of_its_own() {
    let cases = cases();
    for call in &CALLS {
        let table = Table::new(call, &cases).unwrap();
        let books: Vec<&str> = table.lines.iter().map(|line| line.book).collect();
        let own = books.iter().filter(|book| **book == "fx and commodity");
        let small_bank = call.name == "small bank";
        let alone =
            WRITES[1..].contains(&call.name) || ["shortest", "least trade"].contains(&call.name);
        assert_eq!(own.count(), if small_bank { 3 } else { 0 }, "{books:?}");
        let others = !small_bank && !alone;
        assert_eq!(books.contains(&"all classes"), others, "{books:?}");
        assert_eq!(books.contains(&"refused, last row"), !alone, "{books:?}");
    }
}

/// The lines that calls have which write a book or a part of one, or look for a trade.
const OWN_LINES: [(&str, &[(&str, usize)]); 7] = [
    (
        "net",
        &[
            ("no rows", 0),
            ("1 issue", 40),
            ("10 issues", 40),
            ("40 issues", 40),
            ("1 issue", 4_000),
            ("60 issues", 4_000),
            ("4,000 issues", 4_000),
            ("60 issues, refused", 4_000),
        ],
    ),
    (
        "offset",
        &[
            ("no rows", 0),
            ("near pairs", 40),
            ("near pairs", 4_000),
            ("amounts apart", 4_000),
            ("one side", 4_000),
            ("terms apart", 4_000),
        ],
    ),
    (
        "net and offset",
        &[
            ("no rows", 0),
            ("10 issues in pairs", 40),
            ("60 issues in pairs", 4_000),
            ("4,000 issues, amounts apart", 4_000),
        ],
    ),
    (
        "shortest",
        &[
            ("last row bad", 40),
            ("last row bad", 4_000),
            ("accepted", 4_000),
        ],
    ),
    (
        "dearest",
        &[("no rows", 0), ("rows alike", 40), ("rows alike", 4_000)],
    ),
    (
        "options",
        &[("no rows", 0), ("options", 40), ("options", 1_000)],
    ),
    (
        "least trade",
        &[
            ("met at once", 40),
            ("met at once", 4_000),
            ("met at once, 32 currencies", 4_000),
            ("met midway", 40),
            ("met by one amount", 40),
            ("never met", 40),
            ("missed by a mil", 40),
        ],
    ),
];

/// Catches lines of these calls that are missing, or that stand in another call's table.
#[test]
fn other_calls_have_lines_of_their_own() {
    let cases = cases();
    for call in &CALLS {
        let table = Table::new(call, &cases).unwrap();
        let own: Vec<(&str, usize)> = table
            .lines
            .iter()
            .map(|line| (line.book, line.rows))
            .collect();
        for (name, lines) in OWN_LINES {
            assert_eq!(own == lines, call.name == name, "{}", call.name);
            let shared = own.iter().any(|line| line.1 > 0 && lines.contains(line));
            assert_eq!(shared, call.name == name, "{}", call.name);
        }
    }
}
