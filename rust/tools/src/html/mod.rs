//! `html`: a page of a book's charges, with its ladders drawn.

mod commodity;
mod curve;
mod figures;
mod interest;
mod others;
mod page;
mod refusal;
mod report;
mod small_bank;
mod style;
mod tables;

use crate::cli::{no, Args, Choice, Command, Failure, Outcome, Part, Value};
use crate::files::{apart, input, write};
use crate::ladder::Why;
use crate::least_trade::{Answered, Asked};
use crate::load::{read_noted, Given};
use crate::name::name;
use crate::report::explain;
use crate::table::Loaded;
use figures::Figures;
use page::Subject;
use std::path::Path;

pub const COMMAND: Command = Command {
    name: "html",
    brief: "a page of a book's charges, with its ladders drawn",
    forms: &[
        "BOOK -o FILE [--table FILE]",
        "BOOK -o FILE --currency G --band B --side long|short --limit X [--table FILE]",
        "BOOK -o FILE --currency G --days D --coupon C --side long|short --limit X [--table FILE]",
    ],
    about: &[
        Part::Text(
            "Writes one page for a browser, which needs nothing else: no network and no scripts. \
             It has the six charges and the total, what interest costs by currency, and what the \
             book would cost netted or offset; then the ladder of each currency and commodity \
             that has rows, as a drawing and as tables, with the lines by which it adds up. A \
             book without interest and equity rows has the small bank's charges too. It prints \
             on A4.",
        ),
        Part::Text(
            "In a drawing longs go up and shorts down, and what is matched within a band is \
             hatched. Below stand the zones, and an arrow for each match between two, from the \
             long to the short. Figures that are too long for a drawing are shortened there; \
             they stand exactly in the tables, and where a pointer rests on them.",
        ),
        Part::Text(
            "With --currency, a band, --side and --limit it also draws the charge of the \
             currency against the amount that is added, with the limit and the least amount \
             within it, as market-risk least-trade finds it.",
        ),
        Part::Text(
            "A refused book is explained on the page, which is written, and the exit status is \
             1. Where a check of market-risk report, ladder, small-bank, net, offset or \
             least-trade finds a difference, nothing is written, and the exit status is 1.",
        ),
    ],
    options: &[
        Choice::file("-o", "FILE", "the page; - is standard output"),
        Choice::number("--currency", "G", "the currency of a least trade, 0 to 31"),
        Choice::number("--band", "B", "its band, 0 to 14"),
        Choice::number("--days", "D", "or the band of an instrument of D days"),
        Choice::number("--coupon", "C", "and a coupon of C basis points"),
        Choice::word("--side", &["long", "short"], "the side that is added to"),
        Choice::text("--limit", "X", "the highest charge, in currency units"),
        Choice::file(
            "--table",
            "FILE",
            "charges under this table, 36 bytes or text as market-risk table --help tells, in \
             the place of document 01's; where it is another, it is shown on the page",
        ),
    ],
    operands: Some(Value::File("BOOK")),
    run,
};

/// The options that ask for a least trade.
const TRADE: [&str; 6] = [
    "--currency",
    "--band",
    "--days",
    "--coupon",
    "--side",
    "--limit",
];

/// The least trade that is asked for, where one is.
fn trade(args: &Args) -> Result<Option<Asked>, Failure> {
    match TRADE.iter().any(|name| args.text(name).is_some()) {
        true => Asked::new(&COMMAND, args).map(Some),
        false => Ok(None),
    }
}

/// The page of a book and, where the book is refused, why; or a difference, of which there is no page.
fn page(
    given: &Given,
    loaded: &Loaded,
    asked: Option<&Asked>,
    name: String,
) -> Result<(String, Option<String>), String> {
    let note = loaded.note();
    let subject = Subject { name, note };
    match Figures::new(given, &loaded.table) {
        Ok(figures) => {
            let trade = asked.map(|asked| Answered::new(given, &loaded.table, asked));
            let trade = trade.transpose()?;
            Ok((subject.accepted(&figures, trade.as_ref()), None))
        }
        Err(Why::Refused(refusal)) => {
            let page = subject.refused(given, &refusal);
            Ok((page, Some(explain(given, &refusal))))
        }
        Err(Why::Differs(why)) => Err(why),
    }
}

fn run(args: &Args) -> Outcome {
    let [path] = args.files()?;
    let to = args.path("-o").ok_or_else(|| COMMAND.incomplete(args))?;
    let inputs: Vec<&Path> = [path].into_iter().chain(args.path("--table")).collect();
    apart(to, &inputs)?;
    let asked = trade(args)?;
    let loaded = Loaded::new(args, path)?;
    let given = read_noted(path)?;
    let named = |why: String| no(format!("{}: {why}", input(path)));
    let page = page(&given, &loaded, asked.as_ref(), name(path));
    let (page, refused) = page.map_err(named)?;
    write(to, page.as_bytes())?;
    refused.map_or(Ok(()), |why| Err(named(why)))
}
