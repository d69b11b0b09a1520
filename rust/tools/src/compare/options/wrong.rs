//! Wrong readings of options: a run must find each, and show few options for it.

use super::super::asked::Asked;
use super::super::case::Case;
use super::super::run::Run;
use super::super::trade::Trade;
use super::misread::Misread;
use super::readings::Wrong;
use super::OptionTables;
use crate::calls::{Calls, Second};

/// How a result that differs is told, a byte of the output, and a claim.
pub const ENTRY: &str = "options by a wrong reading and by the second calculation: entry ";
pub const BYTE: &str = "options: output byte ";
pub const CLAIM: &str = "options: ";

/// A case of a seed with its option tables alone: the books have no bytes.
pub fn alone(seed: u64, number: u64) -> Case {
    Case {
        a: vec![],
        b: vec![],
        table: second::table().to_vec(),
        group: 0,
        room: 0,
        net_room: 0,
        offset_room: 0,
        both_room: 0,
        shortest_room: 0,
        dearest: Asked {
            rows: 0,
            most: 1,
            room: 8,
        },
        options: OptionTables::of_case(seed, number),
        trade: Trade::default(),
        order: 0,
    }
}

/// A run of 3,000 such cases with a reading.
pub fn run(library: &dyn Calls) -> Run<'_> {
    Run {
        library,
        other: &Second,
        cases: alone,
        seed: 1,
        first: 0,
        count: 3_000,
    }
}

/// Holds what is told of a wrong reading, which a run must find, to what differs, and to the most options
/// of each table that are wanted to show it.
pub fn shown(wrong: Wrong, how: &str, words: &str, most: [usize; 2]) {
    let name = "a wrong reading";
    let message = match run(&Misread { name, wrong }).outcome() {
        Err(failure) => failure.message,
        Ok(_) => panic!("{wrong:?} is not found"),
    };
    let what = message.lines().nth(1).unwrap_or_default();
    let told = format!("{how}{words}");
    assert!(what.starts_with(&told), "{wrong:?}: {message}");
    for (name, most) in ["A", "B"].into_iter().zip(most) {
        let begins = format!("option table {name}, ");
        let mut lines = message.lines();
        let line = lines.find_map(|line| line.strip_prefix(&begins)).unwrap();
        let bytes: usize = line.split(' ').next().unwrap().parse().unwrap();
        assert!(bytes < 2 + 18 * (most + 1), "{wrong:?}: {message}");
    }
}

/// Catches wrong readings that are found because the reading of the others is wrong as well.
#[test]
fn the_right_reading_differs_nowhere() {
    let right = Misread {
        name: "the right reading",
        wrong: Wrong::Nothing,
    };
    let run = run(&right);
    let mut cases = (0..3_000).map(|number| alone(1, number));
    assert!(cases.all(|case| run.difference(&case).is_none()));
}

/// Catches tables that are tried here and not by the command.
#[test]
fn the_tables_are_those_of_any_run() {
    for number in 0..200 {
        assert_eq!(alone(1, number).options, Case::new(1, number).options);
    }
}
