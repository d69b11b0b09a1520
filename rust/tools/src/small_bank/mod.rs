//! `small-bank`: the charges of a bank with only foreign exchange and commodities.

mod adding_up;
mod positions;
mod tables;

use crate::cli::{no, Args, Command, Outcome, Part, Value};
use crate::files::{input, print};
use crate::lines::{hold, show, Line};
use crate::load::read_noted;
use crate::report::explain;
use adding_up::lines;
use books::Book;
use market_risk::SmallBank;
use positions::Holdings;

pub const COMMAND: Command = Command {
    name: "small-bank",
    brief: "the charges of a bank with only foreign exchange and commodities",
    forms: &["BOOK"],
    about: &[
        Part::Text(
            "Prints the charges of a book of foreign exchange and commodities, and their \
             total, in currency units, to the mil. Foreign exchange is charged as by \
             market-risk report, the commodities by the Amendment's simplified method: 15% of \
             each commodity's net and 3% of its gross, whatever the days of its rows.",
        ),
        Part::Text(
            "Below stand the positions, in thousands, so that the charges can be checked by \
             hand: of each currency that has rows its longs, shorts and net, then gold; of \
             each commodity its longs, shorts, net without its sign, gross and charge. Last \
             come the lines by which the charges add up:",
        ),
        Part::Words(&[
            (
                "foreign exchange",
                "8% of the greater of the summed net longs and the summed net shorts without \
                 gold, and 8% of gold's net",
            ),
            (
                "commodity",
                "15% of the summed nets and 3% of the summed gross positions",
            ),
            ("total", "the sum of both"),
        ]),
        Part::Text(
            "The three charges are the proved library's. The rows are added up here, and the \
             command fails if a line does not hold, or if the library charges a book that has \
             interest or equity rows. Such a book is refused with 20. A refused book is \
             explained in words, and the exit status is 1.",
        ),
    ],
    options: &[],
    operands: Some(Value::File("BOOK")),
    run,
};

/// Interest or equity rows of a book that was charged.
fn stray(book: &Book) -> Option<String> {
    let [interest, equity] = [0, 1].map(|class| book.classes[class].len());
    let stray = interest + equity > 0;
    stray.then(|| format!("the library charged {interest} interest and {equity} equity rows"))
}

/// The lines by which a book's charges add up, or all that cannot be true of them.
pub fn checked(book: &Book, charged: &SmallBank) -> Result<Vec<Line>, String> {
    let lines = lines(&Holdings::new(book), charged);
    hold(stray(book), &lines)?;
    Ok(lines)
}

/// What is printed of a book's charges, or all that cannot be true of them.
fn text(book: &Book, charged: &SmallBank) -> Result<String, String> {
    let lines = checked(book, charged)?;
    let holdings = Holdings::new(book);
    let parts = [
        format!("{charged}\n"),
        "amounts in thousands, charges in currency units\n".into(),
        tables::currencies(&holdings),
        tables::commodities(&holdings),
        show(&lines),
    ];
    Ok(parts.join("\n"))
}

fn run(args: &Args) -> Outcome {
    let [path] = args.files()?;
    let given = read_noted(path)?;
    let charged = market_risk::small_bank(&given.bytes);
    let explained = charged.map_err(|refusal| explain(&given, &refusal));
    let book = Book::decode(&given.bytes).unwrap_or_default();
    let text = explained.and_then(|charged| text(&book, &charged));
    print(&text.map_err(|why| no(format!("{}: {why}", input(path))))?)
}

#[cfg(test)]
mod tests {
    use super::*;
    use books::Row;

    /// Currency 1 long 100; commodity 5 long 80 at 30 days and short 30 at 360.
    fn book() -> Book {
        let row = |group, days, long, short| {
            let row = Row::default().with_group(group);
            row.with_days(days).with_sides(long, short)
        };
        let mut book = Book::default();
        book.classes[2] = vec![row(1, 0, 100, 0)];
        book.classes[3] = vec![row(5, 30, 80, 0), row(5, 360, 0, 30)];
        book
    }

    /// What the library charges for a book.
    fn library(book: &Book) -> SmallBank {
        market_risk::small_bank(&book.encode().unwrap()).unwrap()
    }

    #[test]
    fn charges_come_first_and_lines_last() {
        let expected = "\
                        foreign exchange   8,000.000
commodity         10,800.000
total             18,800.000

amounts in thousands, charges in currency units

currency  long  short  net long  net short
1          100      0       100          0
all        100      0       100          0
gold         0      0         0          0

commodity  long  short  net  gross      charge
5            80     30   50    110  10,800.000
all          80     30   50    110  10,800.000

foreign exchange   8,000.000  = 8,000.000 (8% of net long) + 0.000 (8% of gold)
commodity         10,800.000  = 7,500.000 (15% of net) + 3,300.000 (3% of gross)
total             18,800.000  = 8,000.000 + 10,800.000
";
        assert_eq!(text(&book(), &library(&book())), Ok(expected.into()));
    }

    /// Catches charges that are printed though a line does not hold, and a fault that hides
    /// another.
    #[test]
    fn wrong_charges_are_never_printed() {
        let mut wrong = library(&book());
        (wrong.exchange, wrong.total) = (7_999_999, 0);
        let told = text(&book(), &wrong).unwrap_err();
        let lines = [
            "does not add up: foreign exchange 7,999.999 = 8,000.000 (8% of net long) + 0.000 (8% of gold)",
            "does not add up: total 0.000 = 7,999.999 + 10,800.000",
        ];
        assert_eq!(told.lines().collect::<Vec<_>>(), lines);
    }

    /// Catches a book that is charged though it has rows of the other classes.
    #[test]
    fn interest_and_equity_rows_must_be_refused() {
        let charged = library(&book());
        for (class, told) in [
            (0, "the library charged 1 interest and 0 equity rows"),
            (1, "the library charged 0 interest and 1 equity rows"),
        ] {
            let mut stray = book();
            stray.classes[class] = vec![Row::default()];
            assert_eq!(text(&stray, &charged), Err(told.into()));
        }
    }
}
