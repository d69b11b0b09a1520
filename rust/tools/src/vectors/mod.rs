//! `vectors`: the stored calls of the program `vectors`, and what it must write.

mod answers;
mod bands;
mod build;
mod currencies;
mod dearest;
mod faults;
mod floating;
mod full;
mod joins;
mod ladders;
mod least_trade_build;
mod least_trade_faults;
mod least_trade_random;
mod least_trade_tables;
mod least_trade_zones;
mod least_trades;
mod loaded;
mod net_and_offset;
mod net_and_offset_faults;
mod net_and_offset_orders;
mod net_counts;
mod net_faults;
mod nets;
mod offset_faults;
mod offset_limits;
mod offsets;
mod options;
mod options_build;
mod options_faults;
mod options_random;
mod options_sums;
#[cfg(test)]
mod page;
mod random;
#[cfg(test)]
mod reader;
mod shortest;
mod shortest_rows;
mod small_banks;
mod small_faults;
mod stream;
mod tables;
mod worked;

use crate::cli::{no, usage, Args, Choice, Command, Outcome, Part};
use crate::files::{print, read, write};
use build::Case;

pub const COMMAND: Command = Command {
    name: "vectors",
    brief: "the stored input and expected output of the program vectors",
    forms: &["[--seed S] --write DIR", "[--seed S] --check DIR"],
    about: &[Part::Text(
        "Makes the calls of the program vectors: DIR/stdin, a stream of calls with their \
         books, and DIR/stdout, one line a call, as the second calculation answers it. \
         docs/VECTORS.md has the form of both.",
    )],
    options: &[
        Choice::number(
            "--seed",
            "S",
            "the seed of the random books and tables among them, 1 if not given",
        ),
        Choice::folder("--write", "DIR", "write both files"),
        Choice::folder(
            "--check",
            "DIR",
            "exit with status 1 if either file is not what --write would write",
        ),
    ],
    operands: None,
    run,
};

/// All stored calls, in order.
fn cases(seed: u64) -> Vec<Case> {
    [
        worked::cases(),
        faults::cases(),
        bands::cases(),
        ladders::cases(),
        joins::cases(),
        full::cases(),
        currencies::cases(),
        floating::cases(),
        random::cases(seed),
        tables::cases(),
        loaded::cases(seed),
        small_banks::cases(seed),
        small_faults::cases(),
        nets::cases(seed),
        net_faults::cases(),
        net_counts::cases(),
        offsets::cases(seed),
        offset_faults::cases(),
        net_and_offset::cases(seed),
        net_and_offset_faults::cases(),
        shortest::cases(seed),
        shortest_rows::cases(),
        dearest::cases(seed),
        options::cases(),
        options_sums::cases(),
        options_faults::cases(),
        options_random::cases(seed),
        least_trades::cases(),
        least_trade_tables::cases(),
        least_trade_zones::cases(),
        least_trade_faults::cases(),
        least_trade_random::cases(seed),
    ]
    .concat()
}

/// The two files, by name.
fn files(seed: u64) -> [(&'static str, Vec<u8>); 2] {
    let cases = cases(seed);
    [
        ("stdin", stream::encode(&cases)),
        ("stdout", answers::lines(&cases).into_bytes()),
    ]
}

fn run(args: &Args) -> Outcome {
    let [] = args.files()?;
    let files = files(args.number("--seed")?.unwrap_or(1));
    match (args.path("--write"), args.path("--check")) {
        (Some(folder), None) => {
            for (name, bytes) in &files {
                let path = folder.join(name);
                write(&path, bytes)?;
                print(&format!("{}: {} bytes\n", path.display(), bytes.len()))?;
            }
            Ok(())
        }
        (None, Some(folder)) => {
            let shown = folder.display();
            for (name, bytes) in &files {
                if read(&folder.join(name), |_| bytes.len())? != *bytes {
                    return Err(no(format!(
                        "{shown}/{name} is not current: run vectors --write {shown}"
                    )));
                }
            }
            print(&format!("{shown}: both files are current\n"))
        }
        _ => Err(usage("vectors: give one of --write DIR and --check DIR")),
    }
}

#[cfg(test)]
mod tests {
    use super::*;
    use build::Call;
    use std::collections::HashSet;

    #[test]
    fn the_set_is_large_and_the_files_are_small() {
        let cases = cases(1);
        let mut books: HashSet<&[u8]> = cases.iter().map(|case| &case.book[..]).collect();
        books.extend(cases.iter().filter_map(|case| match &case.call {
            Call::Join { other, .. } => Some(&other[..]),
            _ => None,
        }));
        assert!(books.len() >= 300, "{} books", books.len());
        let [(_, stdin), (_, stdout)] = files(1);
        assert!(stdin.len() < 650_000, "{} bytes", stdin.len());
        assert!(stdout.len() < 310_000, "{} bytes", stdout.len());
    }

    #[test]
    fn every_call_meets_every_refusal_of_its_own() {
        let lines = answers::lines(&cases(1));
        let seen = |call: &str, number: usize| {
            lines
                .lines()
                .any(|line| line.starts_with(&format!("{call} {number} ")))
        };
        for number in (0..=9).chain([15]) {
            for call in [
                "check",
                "charge",
                "interest-ladder",
                "commodity-ladder",
                "join",
            ] {
                assert!(seen(call, number), "{call} {number}");
            }
        }
        assert!(seen("interest-ladder", 10) && seen("commodity-ladder", 10));
        for call in ["charge", "interest-ladder"] {
            assert!(seen(call, 18) && seen(call, 19), "{call}");
        }
        assert!(lines.lines().any(|line| line.starts_with("table ")));
        assert!(seen("join", 11) && seen("join", 12));
        for number in (0..=9).chain([20]) {
            assert!(seen("small-bank", number), "small-bank {number}");
        }
        assert!(!seen("small-bank", 15));
        for call in ["net", "net-and-offset"] {
            for number in (0..=9).chain(12..=15) {
                assert!(seen(call, number), "{call} {number}");
            }
            assert!(!seen(call, 10) && !seen(call, 11));
        }
        for number in (0..=9).chain([12, 15]) {
            assert!(seen("offset", number), "offset {number}");
        }
        assert!([10, 11, 13, 14]
            .iter()
            .all(|number| !seen("offset", *number)));
        // A book's own refusal is none of the call that shows it.
        for number in 0..=22 {
            assert_eq!(seen("shortest", number), [0, 12].contains(&number));
            assert_eq!(seen("dearest", number), [0, 12, 22].contains(&number));
            assert_eq!(seen("options", number), [0, 12, 16, 17].contains(&number));
            let trades = (0..=10).chain([15, 18, 19, 21]).any(|of| of == number);
            assert_eq!(seen("least-trade", number), trades, "{number}");
        }
    }

    /// Every number that a book is refused with is shown, where there is room for it and where there
    /// is none, and so are books that are accepted.
    #[test]
    fn the_shortest_file_is_written_of_every_refusal() {
        let mut seen = HashSet::new();
        for case in cases(1) {
            if let Call::Shortest { room } = case.call {
                let number = second::check(&case.book).number;
                let shown = second::shortest_file(&case.book).map(|shown| shown.len());
                seen.insert((number, shown.unwrap_or(0).cmp(&(room as usize))));
            }
        }
        use std::cmp::Ordering::{Equal, Greater, Less};
        for number in [0, 1] {
            assert!([Equal, Less]
                .iter()
                .all(|room| seen.contains(&(number, *room))));
        }
        for number in (2..=9).chain([15]) {
            let rooms = [Equal, Less, Greater];
            assert!(
                rooms.iter().all(|room| seen.contains(&(number, *room))),
                "{number}"
            );
        }
    }

    #[test]
    fn a_seed_gives_one_pair_of_files() {
        assert_eq!(files(4), files(4));
        assert_ne!(files(4), files(5));
    }
}
