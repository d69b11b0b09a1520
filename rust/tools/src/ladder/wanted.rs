//! Which ladders of a book are wanted.

use crate::cli::{usage, Args, Failure};
use books::Book;
use std::collections::BTreeSet;

/// What the options ask for: all that have rows, or one.
#[derive(Clone, Copy, Debug, PartialEq, Eq)]
pub enum Wanted {
    All,
    Currencies,
    Commodities,
    Currency(u64),
    Commodity(u64),
}

/// The groups of a class that have rows, in order.
fn used(book: &Book, class: usize) -> Vec<u64> {
    let groups = book.classes[class].iter().map(|row| row.group.into());
    groups.collect::<BTreeSet<u64>>().into_iter().collect()
}

impl Wanted {
    /// What the options ask for, of which at most one may be given.
    pub fn of(args: &Args) -> Result<Wanted, Failure> {
        let asked = [
            args.number("--currency")?.map(Wanted::Currency),
            args.number("--commodity")?.map(Wanted::Commodity),
            args.flag("--currencies").then_some(Wanted::Currencies),
            args.flag("--commodities").then_some(Wanted::Commodities),
        ];
        let asked: Vec<Wanted> = asked.into_iter().flatten().collect();
        let under_table = args.path("--table").is_some();
        match asked[..] {
            [] => Ok(Wanted::All),
            [Wanted::Commodity(_) | Wanted::Commodities] if under_table => {
                Err(usage("ladder: the ladder of a commodity takes no table"))
            }
            [wanted] => Ok(wanted),
            _ => Err(usage(
                "ladder: give one of --currency N, --commodity N, --currencies and --commodities, \
                 or none of them for all ladders",
            )),
        }
    }

    /// Whether the book alone says which ladders these are.
    pub fn of_book(&self) -> bool {
        !matches!(self, Wanted::Currency(_) | Wanted::Commodity(_))
    }

    /// The currencies and the commodities of a book that are wanted.
    pub fn groups(&self, book: &Book) -> [Vec<u64>; 2] {
        match *self {
            Wanted::All => [used(book, 0), used(book, 3)],
            Wanted::Currencies => [used(book, 0), vec![]],
            Wanted::Commodities => [vec![], used(book, 3)],
            Wanted::Currency(group) => [vec![group], vec![]],
            Wanted::Commodity(group) => [vec![], vec![group]],
        }
    }

    /// What is printed where a book has no such ladder.
    pub fn none(&self) -> &'static str {
        match self {
            Wanted::Currencies | Wanted::Currency(_) => "no currency has interest rows",
            Wanted::Commodities | Wanted::Commodity(_) => "no commodity has rows",
            Wanted::All => "no currency has interest rows, and no commodity has rows",
        }
    }
}
