//! docs/VECTORS.md and docs/TRUST.md against what is stored in crates/vectors: the sizes that they state.

use super::build::{Call, Case, Trade};
use super::reader::read;
use std::collections::HashSet;

/// Whether a call is of an option table, not of a book.
fn of_options(case: &&Case) -> bool {
    matches!(case.call, Call::Options { .. })
}

/// The different books of some calls.
fn books(cases: &[Case]) -> usize {
    let others = cases.iter().filter_map(|case| match &case.call {
        Call::Join { other, .. } => Some(other),
        _ => None,
    });
    let books = cases.iter().filter(|case| !of_options(case));
    let books = books.map(|case| &case.book);
    books.chain(others).collect::<HashSet<_>>().len()
}

/// The different option tables of some calls.
fn option_tables(cases: &[Case]) -> usize {
    let tables = cases.iter().filter(of_options).map(|case| &case.book);
    tables.collect::<HashSet<_>>().len()
}

/// The different tables of some calls.
fn tables(cases: &[Case]) -> usize {
    let tables = cases.iter().filter_map(|case| match &case.call {
        Call::ChargeBy { table }
        | Call::InterestLadderBy { table, .. }
        | Call::LeastTrade(Trade { table, .. }) => Some(table),
        _ => None,
    });
    tables.collect::<HashSet<_>>().len()
}

/// A file of the repository.
fn stored(path: &str) -> Vec<u8> {
    std::fs::read(format!("{}/../../{path}", env!("CARGO_MANIFEST_DIR"))).unwrap()
}

/// A number as the page writes it.
fn thousands(number: usize) -> String {
    crate::text::whole(number as u64)
}

/// What the page says of the random books and tables.
fn randoms() -> [String; 11] {
    use super::{
        dearest, least_trade_random, loaded, net_and_offset, nets, offsets, options_random, random,
    };
    use super::{shortest, small_banks};
    let (books, tables) = (loaded::BOOKS, loaded::TABLES);
    [
        format!("- {} random books of the seed, each damaged", random::BOOKS),
        format!("- {books} random books of the seed, each under a random table"),
        format!("and {tables} random ones of the seed;"),
        format!(
            "- {} random pairs of such books of the seed",
            small_banks::PAIRS
        ),
        format!(
            "- {} random books of the seed whose rows share issues",
            nets::BOOKS
        ),
        format!("- {} random books of swap legs of the seed", offsets::BOOKS),
        format!(
            "- {} random books of legs that share issues of the seed",
            net_and_offset::BOOKS
        ),
        format!(
            "- {} random books of the seed and the shortest files that show their refusals",
            shortest::BOOKS
        ),
        format!(
            "- {} random numbers of rows, largest amounts",
            dearest::CALLS
        ),
        format!(
            "- {} random option tables of the seed",
            options_random::TABLES
        ),
        format!(
            "- {} random least trades of the seed",
            least_trade_random::CALLS
        ),
    ]
}

/// The words of a page, with single spaces between them.
fn words(path: &str) -> String {
    let page = String::from_utf8(stored(path)).unwrap();
    page.split_whitespace().collect::<Vec<_>>().join(" ")
}

/// Catches pages whose sizes are no longer those of the stored files.
#[test]
fn the_pages_state_the_sizes_of_what_is_stored() {
    let (stdin, stdout) = (
        stored("crates/vectors/stdin"),
        stored("crates/vectors/stdout"),
    );
    let cases = read(&stdin);
    let lines = stdout.iter().filter(|byte| **byte == b'\n').count();
    assert_eq!(cases.len(), lines);
    let [calls, books, tables] = [cases.len(), books(&cases), tables(&cases)].map(thousands);
    let options = thousands(option_tables(&cases));
    let [read, written] = [stdin.len(), stdout.len()].map(thousands);
    let stated = format!(
        "{calls} calls on {books} different books, some by {tables} different tables, and on {options} \
         different option tables: `stdin` has {read} bytes and `stdout` {written}."
    );
    let page = words("docs/VECTORS.md");
    assert_eq!(page.matches(&stated).count(), 1, "{stated}");
    let stated = format!("{calls} stored calls on {books} books and {options} option tables");
    assert!(words("docs/TRUST.md").contains(&stated), "{stated}");
    for random in randoms() {
        assert_eq!(page.matches(&random).count(), 1, "{random}");
    }
}

/// Catches stored files that are not those of the second calculation, for seed 1.
#[test]
fn the_stored_files_are_current() {
    for (name, bytes) in super::files(1) {
        let current = stored(&format!("crates/vectors/{name}")) == bytes;
        assert!(current, "{name} is not current");
    }
}
