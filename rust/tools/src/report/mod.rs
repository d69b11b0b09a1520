//! `report`: the charges of a book, or why it is refused.

mod currencies;
mod doubt;
mod explain;
mod issues;
mod listed;
mod refused;

use crate::cli::{no, Args, Choice, Command, Outcome, Part, Value};
use crate::files::{input, print};
use crate::forms::{self, Form};
use crate::load::read_noted;
use crate::table::Loaded;
use books::Book;
use market_risk::Report;

pub use currencies::used;
pub use doubt::doubt;
pub use explain::{explain, fields};
pub use refused::refused;

pub const COMMAND: Command = Command {
    name: "report",
    brief: "the six charges of a book and their total",
    forms: &["BOOK [--table FILE] [--currencies] [--json | --csv]"],
    about: &[Part::Text(
        "Prints the six charges of a book and their total in currency units, to the mil. A \
         refused book is explained in words, with the fields of its row, and the exit \
         status is 1. The command fails too if the library took another number of rows \
         than the file has, if its six charges do not add up to its total, if its charges \
         by currency do not add up to the two interest charges, or if a currency without \
         interest rows has any.",
    )],
    options: &[
        Choice::file(
            "--table",
            "FILE",
            "charges interest under this table, 36 bytes or text as market-risk table --help \
             tells, in the place of document 01's; where it is another, it is shown above the \
             charges. A refused table is told with the conditions that it breaks, and the exit \
             status is 1",
        ),
        Choice::flag(
            "--currencies",
            "then prints, below an empty line, the specific and the general charge of each \
             currency that has interest rows, both together, and the sums; JSON and CSV always \
             have the two charges of each",
        ),
        forms::JSON,
        forms::CSV,
    ],
    operands: Some(Value::File("BOOK")),
    run,
};

/// The report as lines.
pub fn figures(report: &Report) -> String {
    format!("{report}\n")
}

/// The report as text, with the charges by currency where they are wanted.
fn text(book: &Book, report: &Report, by_currency: bool) -> String {
    let figures = figures(report);
    match by_currency {
        false => figures,
        true => format!("{figures}\n{}", currencies::show(book, report)),
    }
}

/// What is printed of a report in a form, or why it cannot be that of the book.
fn printed(
    book: &Book,
    report: &Report,
    loaded: &Loaded,
    (form, by_currency): (Form, bool),
) -> Result<String, String> {
    match (doubt(book, report), form) {
        (Some(why), _) => Err(why),
        (None, Form::Text) => Ok(loaded.note() + &text(book, report, by_currency)),
        (None, Form::Json) => Ok(format!("{}\n", listed::json(book, report, &loaded.table))),
        (None, Form::Csv) => Ok(listed::csv(book, report)),
    }
}

fn run(args: &Args) -> Outcome {
    let [path] = args.files()?;
    let form = Form::of(args)?;
    let failed = |failure| form.failed(failure);
    let loaded = Loaded::new(args, path).map_err(failed)?;
    let given = read_noted(path).map_err(failed)?;
    let charged = market_risk::charge(&given.bytes, &loaded.table);
    let report = charged.map_err(|refusal| refused(form, path, &given, &refusal))?;
    let book = Book::decode(&given.bytes).unwrap_or_default();
    loaded.note_beside(form);
    let printed = printed(&book, &report, &loaded, (form, args.flag("--currencies")));
    print(&printed.map_err(|why| no(format!("{}: {why}", input(path))))?)
}

#[cfg(test)]
mod tests {
    use super::*;

    /// The rows taken and the charges by currency are not printed.
    #[test]
    fn figures_are_in_currency_units() {
        let mut report = Report::default();
        report.interest_general = 4_580_112_500;
        report.total = 4_580_112_500;
        report.taken = 3_999;
        report.specifics = [8_888; 32];
        report.generals = [8_888; 32];
        let text = figures(&report);
        assert!(
            text.contains("interest general   4,580,112.500\n"),
            "{text}"
        );
        assert_eq!(text.lines().count(), 7);
        assert!(!text.contains("3,999"), "{text}");
        assert!(!text.contains("8.888"), "{text}");
    }

    /// Catches charges by currency that are printed without being asked for, or in another
    /// place than below the report.
    #[test]
    fn currencies_come_below_the_report_where_they_are_asked_for() {
        let (book, report) = (Book::default(), Report::default());
        let plain = text(&book, &report, false);
        assert_eq!(plain, figures(&report));
        let below = currencies::show(&book, &report);
        let more = text(&book, &report, true);
        assert_eq!(more, format!("{plain}\n{below}"));
    }

    /// Catches a report that is doubted in one form alone, or with the option alone.
    #[test]
    fn a_wrong_report_is_never_printed() {
        let mut wrong = Report::default();
        wrong.taken = 1;
        let loaded = Loaded::default();
        for form in [Form::Text, Form::Json, Form::Csv] {
            for by_currency in [false, true] {
                let wanted = (form, by_currency);
                assert!(printed(&Book::default(), &wrong, &loaded, wanted).is_err());
                let right = Report::default();
                assert!(printed(&Book::default(), &right, &loaded, wanted).is_ok());
            }
        }
    }
}
