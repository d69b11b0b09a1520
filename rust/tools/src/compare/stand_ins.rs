//! Runs with calculations that are none, or not all of one: each must fail.

use super::asked::Asked;
use super::case::Case;
use super::options::OptionTables;
use super::premises::{at_most_two, zones};
use super::run::{Run, DEFAULT_COUNT};
use super::trade::answer;
use super::trade::Trade;
use crate::calls::{Calls, Proved, Second};
use crate::cli::{Args, Failure};
use books::legs::LEG;
use books::Book;

/// The fifteen calls.
#[derive(Clone, Copy, Debug, PartialEq)]
enum Call {
    Check,
    Part,
    Charge,
    InterestLadder,
    CommodityLadder,
    SmallBank,
    Join,
    Net,
    Offset,
    NetAndOffset,
    Shortest,
    Dearest,
    Options,
    LeastTrade,
    Table,
}

const CALLS: [Call; 15] = [
    Call::Check,
    Call::Part,
    Call::Charge,
    Call::InterestLadder,
    Call::CommodityLadder,
    Call::SmallBank,
    Call::Join,
    Call::Net,
    Call::Offset,
    Call::NetAndOffset,
    Call::Shortest,
    Call::Dearest,
    Call::Options,
    Call::LeastTrade,
    Call::Table,
];

/// The second calculation, but for some calls: these write zeros, or nothing at all.
struct StandIn<'a> {
    without: &'a [Call],
    zeros: bool,
}

impl StandIn<'_> {
    /// Answers a call, or writes what a stand-in writes.
    fn answer<const N: usize>(&self, call: Call, out: &mut [u64; N], real: impl Fn(&mut [u64; N])) {
        match (self.without.contains(&call), self.zeros) {
            (false, _) => real(out),
            (true, true) => out.fill(0),
            (true, false) => (),
        }
    }

    /// The same of a call that writes a book: a stand-in leaves the output as it is.
    fn write<const N: usize>(
        &self,
        call: Call,
        out: &mut [u8],
        result: &mut [u64; N],
        real: impl Fn(&mut [u8], &mut [u64; N]),
    ) {
        match (self.without.contains(&call), self.zeros) {
            (false, _) => real(out, result),
            (true, true) => result.fill(0),
            (true, false) => (),
        }
    }
}

impl Calls for StandIn<'_> {
    fn name(&self) -> &'static str {
        "a stand-in"
    }
    fn check(&self, book: &[u8], out: &mut [u64; 3]) {
        self.answer(Call::Check, out, |out| Second.check(book, out));
    }
    fn part(&self, book: &[u8], class: usize, out: &mut [u64; 5]) {
        self.answer(Call::Part, out, |out| Second.part(book, class, out));
    }
    fn charge(&self, book: &[u8], table: &[u8], out: &mut [u64; 75]) {
        self.answer(Call::Charge, out, |out| Second.charge(book, table, out));
    }
    fn interest_ladder(&self, book: &[u8], table: &[u8], group: usize, out: &mut [u64; 13]) {
        let real = |out: &mut [u64; 13]| Second.interest_ladder(book, table, group, out);
        self.answer(Call::InterestLadder, out, real);
    }
    fn commodity_ladder(&self, book: &[u8], group: usize, out: &mut [u64; 7]) {
        let real = |out: &mut [u64; 7]| Second.commodity_ladder(book, group, out);
        self.answer(Call::CommodityLadder, out, real);
    }
    fn small_bank(&self, book: &[u8], out: &mut [u64; 6]) {
        self.answer(Call::SmallBank, out, |out| Second.small_bank(book, out));
    }
    fn join(&self, a: &[u8], b: &[u8], out: &mut [u8], result: &mut [u64; 4]) {
        self.write(Call::Join, out, result, |out, result| {
            Second.join(a, b, out, result);
        });
    }
    fn net(&self, book: &[u8], out: &mut [u8], result: &mut [u64; 5]) {
        self.write(Call::Net, out, result, |out, result| {
            Second.net(book, out, result);
        });
    }
    fn offset(&self, book: &[u8], out: &mut [u8], result: &mut [u64; 4]) {
        self.write(Call::Offset, out, result, |out, result| {
            Second.offset(book, out, result);
        });
    }
    fn net_and_offset(&self, book: &[u8], out: &mut [u8], result: &mut [u64; 5]) {
        self.write(Call::NetAndOffset, out, result, |out, result| {
            Second.net_and_offset(book, out, result);
        });
    }
    fn shortest(&self, book: &[u8], out: &mut [u8], result: &mut [u64; 5]) {
        self.write(Call::Shortest, out, result, |out, result| {
            Second.shortest(book, out, result);
        });
    }
    fn dearest(&self, rows: usize, most: usize, out: &mut [u8], result: &mut [u64; 5]) {
        self.write(Call::Dearest, out, result, |out, result| {
            Second.dearest(rows, most, out, result);
        });
    }
    fn options(&self, table: &[u8], out: &mut [u8], result: &mut [u64; 17]) {
        self.write(Call::Options, out, result, |out, result| {
            Second.options(table, out, result);
        });
    }
    fn least_trade(
        &self,
        book: &[u8],
        table: &[u8],
        group: usize,
        band: usize,
        side: usize,
        limit: u64,
        out: &mut [u64; 5],
    ) {
        self.answer(Call::LeastTrade, out, |out| {
            *out = answer(book, table, [group, band, side], limit);
        });
    }
    fn table(&self, out: &mut [u8; 36]) {
        match (self.without.contains(&Call::Table), self.zeros) {
            (false, _) => Second.table(out),
            (true, true) => out.fill(0),
            (true, false) => (),
        }
    }
}

/// A run of so many random cases.
fn run<'a>(library: &'a dyn Calls, other: &'a dyn Calls, count: u64) -> Run<'a> {
    Run {
        library,
        other,
        cases: Case::new,
        seed: 1,
        first: 0,
        count,
    }
}

/// How a run fails, which it must, with exit status 1.
fn failure(run: &Run) -> String {
    let Err(Failure {
        status, message, ..
    }) = run.outcome()
    else {
        panic!("the run does not fail");
    };
    assert_eq!(status, 1);
    message
}

/// Catches a comparison that looks at one calculation alone, or leaves a call out: a
/// library without some call fails in either place.
#[test]
fn zeros_and_kept_results_are_differences() {
    let alone = CALLS.map(|call| vec![call]);
    for without in alone.iter().chain([&CALLS.to_vec()]) {
        for zeros in [true, false] {
            let library = StandIn { without, zeros };
            let first = failure(&run(&library, &Second, 300));
            let last = failure(&run(&Second, &library, 300));
            assert!(first.contains(" differs\n"), "{without:?}: {first}");
            assert!(first.contains("a stand-in"), "{without:?}: {first}");
            assert!(last.contains(" differs\n"), "{without:?}: {last}");
        }
    }
}

/// Catches a command that compares the second calculation with itself.
#[test]
fn the_command_compares_the_proved_library_with_the_second_calculation() {
    let asked = Run::asked(&Args::default()).unwrap();
    assert_eq!(asked.library.name(), "the proved library");
    assert_eq!(asked.library.name(), Proved.name());
    assert_eq!(asked.other.name(), "the second calculation");
    assert_eq!(asked.other.name(), Second.name());
    assert_eq!(asked.count, DEFAULT_COUNT);
    let itself = failure(&run(&Second, &Second, 1));
    assert_eq!(itself, "the second calculation is compared with itself");
}

/// Catches cases that are all alike: nothing differs, and nothing was seen either.
#[test]
fn a_run_that_has_seen_too_little_fails() {
    let none = StandIn {
        without: &[],
        zeros: true,
    };
    let mut empty = run(&none, &Second, DEFAULT_COUNT);
    empty.cases = |_, _| Case {
        a: vec![0; 8],
        b: vec![0; 8],
        table: second::table().to_vec(),
        group: 0,
        room: 8,
        net_room: 8,
        offset_room: 8,
        both_room: 8,
        shortest_room: 8,
        dearest: Asked {
            rows: 0,
            most: 1,
            room: 8,
        },
        options: OptionTables::default(),
        trade: Trade::default(),
        order: 0,
    };
    let message = failure(&empty);
    assert!(message.starts_with("20000 pairs have shown too little\n"));
    assert!(message.contains("\nbooks refused 9: 0 where at least 84 are wanted\n"));
    assert!(message.contains("\nbooks accepted with rows: 0 where"));
    assert!(message.contains("\nbooks refused after their first row: 0 where"));
    assert!(message.contains("\ncurrencies joined under their zone premise: 0 where"));
    assert!(message.contains("\nbooks accepted with floating rates: 0 where"));
    assert!(message.contains("\nbooks refused 15: 0 where at least 235 are wanted\n"));
    assert!(message.contains("\nother tables accepted: 0 where"));
    assert!(message.contains("\nsmall banks charged: 0 where"));
    assert!(message.contains("\nsmall banks refused 20: 0 where at least 4450 are wanted\n"));
    assert!(message.contains("\nbooks netted with a sum that comes back: 0 where"));
    assert!(message.contains("\nnets refused 13: 0 where at least 250 are wanted\n"));
    assert!(message.contains("\nnetted joins under the zone premise: 0 where"));
    assert!(message.contains("\ncomparisons as many as there can be: 0 where"));
    assert!(message.contains("\nbooks with legs that fit 7 days apart: 0 where"));
    assert!(message.contains("\nbooks with rows that miss by the 31st day: 0 where"));
    assert!(message.contains("\nbooks netted and offset with an issue and a pair: 0 where"));
    assert!(message.contains("\nshown 6 of commodity: 0 where at least 10 are wanted\n"));
    assert!(message.contains("\noutputs to show of 7: 0 where"));
    assert!(message.contains("\ndearest books refused 22 without room: 0 where"));
    assert!(message.contains("\ndear books held to the most, which cost as dear: 0 where"));
    assert!(message.contains("\noption tables refused 17 for group 32: 0 where"));
    assert!(message.contains("\ngammas charged in commodities: 0 where"));
    assert!(message.contains("\ntwo option tables joined on two sides of an underlying: 0 where"));
    assert!(message.contains("\nleast trades of none: 0 where"));
    assert!(message.contains("\ntrades with three zones used: 0 where"));
    assert!(message.contains("\nleast trades refused 21 for the side: 0 where"));
    assert!(message.contains("\ntables refused 18: 0 where"));
    assert!(message.contains("\ntables refused for 1-3 above 100 alone: 0 where"));
    assert!(!message.contains("books accepted: "), "{message}");
    empty.count = 40;
    assert!(empty.outcome().is_ok());
}

/// A case of a seed, but none in which a currency of the first book, or of both together, uses
/// three zones.
fn without_three(seed: u64, number: u64) -> Case {
    let two = |book: &[u8]| zones(book).iter().all(at_most_two);
    let mut cases = (0..).map(|turn| Case::new(seed + turn, number));
    let wanted = cases.find(|case| {
        let mut joined = vec![0; (case.a.len() + case.b.len()).saturating_sub(8)];
        second::join(&case.a, &case.b, &mut joined);
        two(&case.a) && two(&joined)
    });
    wanted.expect("most cases use two")
}

/// A case of a seed with its floating-rate notes made qualifying bonds.
fn without_notes(seed: u64, number: u64) -> Case {
    let bonds = |bytes: Vec<u8>| {
        let mut book = Book::decode(&bytes)?;
        let notes = book.classes[0].iter_mut().filter(|row| row.kind == 4);
        notes.for_each(|row| row.kind = 2);
        book.encode()
    };
    let case = Case::new(seed, number);
    Case {
        a: bonds(case.a.clone()).unwrap_or(case.a),
        b: bonds(case.b.clone()).unwrap_or(case.b),
        ..case
    }
}

/// A case of a seed, with the commodity rows of the first book in the last band.
fn without_carried(seed: u64, number: u64) -> Case {
    let mut case = Case::new(seed, number);
    if let Some(mut book) = Book::decode(&case.a) {
        let rows = book.classes[3].iter_mut();
        rows.for_each(|row| row.days = row.days.max(1081));
        case.a = book.encode().expect("as many rows");
    }
    case
}

/// A case of a seed under document 01's table.
fn under_one_table(seed: u64, number: u64) -> Case {
    Case {
        table: second::table().to_vec(),
        ..Case::new(seed, number)
    }
}

/// A case of a seed, but none whose first book is a small bank's, as far as its contents tell.
fn without_small_banks(seed: u64, number: u64) -> Case {
    let mut cases = (0..).map(|turn| Case::new(seed + turn, number));
    let refused = |case: &Case| second::small_bank(&case.a).refusal.number;
    let wanted = cases.find(|case| [1, 2, 3, 20].contains(&refused(case)));
    wanted.expect("most cases have interest or equity rows")
}

/// A case of a seed with every row of its own issue, as far as numbers go.
fn without_issues(seed: u64, number: u64) -> Case {
    let alone = |bytes: Vec<u8>, first: u16| {
        let mut book = Book::decode(&bytes)?;
        let rows = book.classes.iter_mut().flatten();
        rows.zip(first..).for_each(|(row, issue)| row.issue = issue);
        book.encode()
    };
    let case = Case::new(seed, number);
    Case {
        a: alone(case.a.clone(), 1).unwrap_or(case.a),
        b: alone(case.b.clone(), 10_001).unwrap_or(case.b),
        ..case
    }
}

/// A case of a seed with its swap legs made qualifying bonds.
fn without_legs(seed: u64, number: u64) -> Case {
    let bonds = |bytes: Vec<u8>| {
        let mut book = Book::decode(&bytes)?;
        let legs = book.classes[0].iter_mut().filter(|row| row.kind == LEG);
        legs.for_each(|row| row.kind = 2);
        book.encode()
    };
    let case = Case::new(seed, number);
    Case {
        a: bonds(case.a.clone()).unwrap_or(case.a),
        b: bonds(case.b.clone()).unwrap_or(case.b),
        ..case
    }
}

/// A case of a seed that asks for a dearest book without rows, into an output that is just long enough.
fn without_dearest(seed: u64, number: u64) -> Case {
    Case {
        dearest: Asked {
            rows: 0,
            most: 1,
            room: 8,
        },
        ..Case::new(seed, number)
    }
}

/// A case of a seed without option tables.
fn without_options(seed: u64, number: u64) -> Case {
    Case {
        options: OptionTables::default(),
        ..Case::new(seed, number)
    }
}

/// A case of a seed, but none whose first book is refused for a row.
fn without_bad_rows(seed: u64, number: u64) -> Case {
    let mut cases = (0..).map(|turn| Case::new(seed + turn, number + 16 * turn));
    let wanted = cases.find(|case| second::check(&case.a).number < 4);
    wanted.expect("most cases are accepted")
}

/// What a run of 4,000 cases of a kind lacks.
pub fn lacking(cases: fn(u64, u64) -> Case) -> Vec<String> {
    let none = StandIn {
        without: &[],
        zeros: true,
    };
    let mut run = run(&none, &Second, 4_000);
    run.cases = cases;
    let message = failure(&run);
    message.lines().skip(1).map(String::from).collect()
}

/// Catches a run that cannot tell a currency's own premise from that of all, or from none:
/// no currency has stood beside one with three zones, and none was dearer when joined. And
/// one whose ladders add up with two zones alone.
#[test]
fn a_run_without_three_zones_fails() {
    let expected = [
        "interest ladders with three zones: 0 where at least 35 are wanted",
        "currencies joined beside one with three zones: 0 where at least 86 are wanted",
        "currencies dearer when joined: 0 where at least 34 are wanted",
        "netted joins dearer with three zones: 0 where at least 13 are wanted",
        "trades with three zones used: 0 where at least 12 are wanted",
    ];
    assert_eq!(lacking(without_three), expected);
}

/// Catches a run whose commodity ladders add up because nothing is carried.
#[test]
fn a_run_without_amounts_carried_fails() {
    let expected = ["commodity ladders with amounts carried: 0 where at least 139 are wanted"];
    assert_eq!(lacking(without_carried), expected);
}

/// Catches a run that has seen no floating-rate note in interest, and so nothing of their rules.
#[test]
fn a_run_without_notes_fails() {
    let lacking = lacking(without_notes);
    let about_notes = |line: &&String| {
        let words = ["floating rates", "refused 15", "shown 15"];
        words.iter().any(|words| line.contains(words))
    };
    assert_eq!(
        lacking.iter().filter(about_notes).count(),
        13,
        "{lacking:?}"
    );
    assert!(lacking.iter().all(|line| line.contains(": 0 where")));
    assert_eq!(lacking.len(), 13, "{lacking:?}");
}

/// Catches a run in which every first book has interest or equity rows: no figure of a small bank
/// was compared, and no refusal of its rows.
#[test]
fn a_run_without_small_banks_fails() {
    let lacking = lacking(without_small_banks);
    let about_banks = |line: &String| line.starts_with("small banks ");
    assert!(lacking.iter().all(about_banks), "{lacking:?}");
    assert!(lacking.iter().all(|line| line.contains(": 0 where")));
    assert_eq!(lacking.len(), 7, "{lacking:?}");
}

/// Catches a run that has seen no table but document 01's, and so nothing of what is loaded.
#[test]
fn a_run_under_document_01_s_table_alone_fails() {
    let mut lacking = lacking(under_one_table);
    // Trades are made for the table of their case.
    lacking.retain(|line| !line.contains("trades "));
    assert!(
        lacking.iter().all(|line| line.contains("tables")),
        "{lacking:?}"
    );
    assert!(lacking.iter().all(|line| line.contains(": 0 where")));
    assert_eq!(lacking.len(), 17, "{lacking:?}");
}

/// Catches a run in which no two rows share an issue: nothing was netted, and nothing was refused
/// for its issues.
#[test]
fn a_run_without_issues_fails() {
    let lacking = lacking(without_issues);
    let none = lacking.iter().filter(|line| line.contains(": 0 where"));
    assert_eq!(none.count(), lacking.len(), "{lacking:?}");
    let about = |line: &&String| {
        let begins = |word: &str| line.starts_with(word);
        line.contains("net") || begins("comparisons ") || begins("both refused 1")
    };
    assert_eq!(lacking.iter().filter(about).count(), 21, "{lacking:?}");
    assert_eq!(lacking.len(), 21, "{lacking:?}");
}

/// Catches a run without swap legs: nothing was offset, no two rows lay at a limit or past it, and
/// no order mattered.
#[test]
fn a_run_without_legs_fails() {
    let lacking = lacking(without_legs);
    assert!(lacking.iter().all(|line| line.contains(": 0 where")));
    let about = |line: &&String| {
        ["legs", "miss", "offset", "both"]
            .iter()
            .any(|word| line.contains(word))
    };
    assert_eq!(lacking.iter().filter(about).count(), 16, "{lacking:?}");
    assert_eq!(lacking.len(), 16, "{lacking:?}");
}

/// Catches a run that has shown no bad row: nothing was copied out of a book, at any place, and no
/// output had room for a row or missed it by a byte.
#[test]
fn a_run_without_bad_rows_fails() {
    let mut lacking = lacking(without_bad_rows);
    lacking.retain(|line| line.contains("shown ") || line.contains(" for a row: "));
    assert!(lacking.iter().all(|line| line.contains(": 0 where")));
    assert_eq!(lacking.len(), 1 + 4 + 2 + 3, "{lacking:?}");
}

/// Catches a run that asks for one book alone: no limit was tried, nothing was refused, and no book was
/// made to be dear.
#[test]
fn a_run_without_dearest_books_fails() {
    let lacking = lacking(without_dearest);
    assert!(lacking.iter().all(|line| line.contains(": 0 where")));
    let about = |line: &&String| line.contains("dearest book") || line.starts_with("dear books ");
    assert_eq!(lacking.iter().filter(about).count(), lacking.len());
    // 22 for both reasons is too rare to be asked for in so few cases.
    assert_eq!(lacking.len(), 5 + 5 + 4 + 2 + 3, "{lacking:?}");
}

/// Catches a run that has seen no options: all that it lacks is about them.
#[test]
fn a_run_without_options_fails() {
    let lacking = lacking(without_options);
    assert!(lacking.iter().all(|line| line.contains(": 0 where")));
    let words = ["option", "gammas ", "vegas "];
    let about = |line: &&String| words.iter().any(|word| line.contains(word));
    assert_eq!(lacking.iter().filter(about).count(), lacking.len());
    // Two sorts of 16 are seen, and the rarest are not asked for in so few cases.
    assert_eq!(lacking.len(), 79 - 2 - 10, "{lacking:?}");
}
