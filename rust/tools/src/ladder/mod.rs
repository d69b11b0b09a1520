//! `ladder`: the ladders of currencies and commodities as a supervisor draws them.

mod about;
pub mod adding_up;
pub mod bands;
pub mod commodity;
mod drawn;
pub mod interest;
mod listed;
mod made;
mod picture;
pub mod steps;
mod wanted;

use crate::cli::{no, Args, Command, Outcome, Value};
use crate::files::{input, print};
use crate::forms::Form;
use crate::json::Json;
use crate::load::read_noted;
use crate::report::refused;
use crate::table::{self, Loaded};
use market_risk::Table;

pub use drawn::{drawn, Ladder, Why};
pub use made::made;
pub use wanted::Wanted;

pub const COMMAND: Command = Command {
    name: "ladder",
    brief: "the ladders of a book, or of one currency or commodity, as tables",
    forms: &[
        "BOOK [--currencies] [--table FILE] [--hide-empty] [--json | --csv]",
        "BOOK --currency N [--table FILE] [--hide-empty] [--json | --csv]",
        "BOOK --commodities [--hide-empty] [--json | --csv]",
        "BOOK --commodity N [--hide-empty] [--json | --csv]",
        "BOOK --currency N --svg [--table FILE]",
        "BOOK --commodity N --svg",
    ],
    about: about::ABOUT,
    options: about::OPTIONS,
    operands: Some(Value::File("BOOK")),
    run,
};

/// What is being compared, and both figures, where they are not the same.
fn same(name: &str, here: i128, library: u64) -> Result<(), String> {
    match here == i128::from(library) {
        true => Ok(()),
        false => Err(format!(
            "{name}: the bands give {here}, the library {library}"
        )),
    }
}

/// The ladders one below the other, or that there are none.
fn text(ladders: &[Ladder], wanted: &Wanted, hide_empty: bool) -> String {
    let texts: Vec<String> = ladders
        .iter()
        .map(|ladder| ladder.text(hide_empty))
        .collect();
    match texts[..] {
        [] => format!("{}\n", wanted.none()),
        _ => texts.join("\n"),
    }
}

/// The ladders as JSON, with the table that they are under.
fn json(ladders: &[Ladder], under: &Table, hide_empty: bool) -> Json {
    let ladders = ladders.iter();
    let ladders = ladders.map(|ladder| ladder.listed(hide_empty).json());
    Json::Object(vec![
        ("table", table::json(under)),
        ("ladders", Json::List(ladders.collect())),
    ])
}

/// The ladders as CSV text: one table.
fn csv(ladders: &[Ladder], hide_empty: bool) -> String {
    let ladders = ladders.iter();
    let lines = ladders.map(|ladder| ladder.listed(hide_empty).csv());
    [listed::titles()].into_iter().chain(lines).collect()
}

fn run(args: &Args) -> Outcome {
    let [path] = args.files()?;
    let (wanted, form) = (Wanted::of(args)?, Form::of(args)?);
    let as_picture = picture::wanted(args, &wanted, form)?;
    let failed = |failure| form.failed(failure);
    let loaded = Loaded::new(args, path).map_err(failed)?;
    let given = read_noted(path).map_err(failed)?;
    let drawn = drawn(&given.bytes, &wanted, &loaded.table);
    let ladders = drawn.map_err(|why| match why {
        Why::Refused(refusal) => refused(form, path, &given, &refusal),
        Why::Differs(why) => no(format!("{}: {why}", input(path))),
    })?;
    if as_picture {
        return print(&picture::pictures(ladders, &loaded.note()));
    }
    let hide_empty = args.flag("--hide-empty");
    loaded.note_beside(form);
    print(&match form {
        Form::Text => loaded.note() + &text(&ladders, &wanted, hide_empty),
        Form::Json => format!("{}\n", json(&ladders, &loaded.table, hide_empty)),
        Form::Csv => csv(&ladders, hide_empty),
    })
}
