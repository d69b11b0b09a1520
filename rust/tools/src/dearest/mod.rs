//! `dearest`: the most that a book of so many rows of at most so much can cost.

mod doubt;
mod rates;

use crate::cli::{no, print, Args, Choice, Command, Failure, Outcome, Part};
use crate::lines::{charge, show, Line, Sign::Equal};
use crate::text::{mils, table, whole};
use crate::written::{self, length_line, Out};
use books::{MOST_ROWS, ROW_BYTES};
use doubt::doubt;
use rates::{Rate, RATES};

pub const COMMAND: Command = Command {
    name: "dearest",
    brief: "the most that a book of some rows of at most an amount can cost",
    forms: &["--rows K --most M [-o FILE [--csv]]"],
    about: &[
        Part::Text(
            "Prints the total of the costliest book of K rows of at most M thousands each, in \
             currency units, under document 01's table: no accepted book of as many rows of at \
             most as much costs more. Below stands what a unit of amount, a thousand, costs at \
             most in each class, and what K rows of M cost there at that rate, so that a limit \
             can be set for a class alone.",
        ),
        Part::Text(
            "Numbers past the limits below are refused with 22, told in words, and the exit status \
             is 1. The book and its total are the proved library's. They are looked at here \
             once more, and the command fails, and writes nothing, if the book has another \
             number of rows or an amount over M, if it is not charged its total by the \
             library, or if the total or a class's rate is not what document 01 makes it.",
        ),
    ],
    options: &[
        Choice::number("--rows", "K", "how many rows, 0 to 4,000"),
        Choice::number(
            "--most",
            "M",
            "the largest amount of a row, 1 to 1,000,000,000 thousands",
        ),
        Choice::file(
            "-o",
            "FILE",
            "writes that book: other paper without a coupon, at 36,000 days in currency 0, \
             each row long M. Other books can be as dear. Not standard output, where the \
             figures are printed",
        ),
        written::CSV,
    ],
    operands: None,
    run,
};

/// What is asked for.
#[derive(Clone, Copy)]
struct Asked {
    rows: u64,
    most: u64,
}

impl Asked {
    /// What a command line asks for, both of which it must give.
    fn new(args: &Args) -> Result<Asked, Failure> {
        match (args.number("--rows")?, args.number("--most")?) {
            (Some(rows), Some(most)) => Ok(Asked { rows, most }),
            _ => Err(COMMAND.incomplete(args)),
        }
    }

    /// Why the numbers are refused with 22, if they are.
    fn limits(&self) -> Option<String> {
        let rows = (self.rows > MOST_ROWS as u64)
            .then(|| format!("{} rows, and 4,000 are the most", whole(self.rows)));
        let most = (!(1..=1_000_000_000).contains(&self.most)).then(|| {
            let most = whole(self.most);
            format!("a largest amount of {most}, and it may be 1 to 1,000,000,000")
        });
        let told: Vec<String> = rows.into_iter().chain(most).collect();
        (!told.is_empty()).then(|| told.join("\n"))
    }

    /// The numbers in words.
    fn words(&self) -> String {
        format!("{} rows x {}", whole(self.rows), whole(self.most))
    }

    /// What so many rows of so much cost at a rate, in mils.
    fn at(&self, rate: &Rate) -> i128 {
        i128::from(self.rows) * i128::from(self.most) * rate.both()
    }
}

/// The library's book and its total, held to what is asked for; or why there is none.
fn book_of(asked: &Asked) -> Result<(Vec<u8>, u64), String> {
    let rows = asked.rows.min(MOST_ROWS as u64) as usize;
    let mut out = vec![0; 8 + ROW_BYTES * rows];
    let [k, m] = [asked.rows, asked.most].map(|number| number as usize);
    match (market_risk::dearest(k, m, &mut out), asked.limits()) {
        (Err(refusal), Some(limits)) if refusal.number == 22 => Err(format!("{refusal}\n{limits}")),
        (Err(refusal), _) => Err(format!("{refusal}\nasked for {}", asked.words())),
        (Ok(_), Some(limits)) => Err(format!("the library takes {limits}")),
        (Ok(done), None) => match doubt(asked, &out, &done, &RATES) {
            Some(why) => Err(why),
            None => Ok((out, done.total)),
        },
    }
}

/// The rates of the classes, and what all rows cost at each.
fn rates(asked: &Asked) -> String {
    let head = ["a unit at most", "specific", "general", "together"].map(String::from);
    let mut lines = vec![[&head[..], &[asked.words()]].concat()];
    lines.extend(RATES.iter().map(|rate| {
        let [specific, general, both] = [rate.specific, rate.general, rate.both()].map(mils);
        vec![
            rate.name.into(),
            specific,
            general,
            both,
            mils(asked.at(rate)),
        ]
    }));
    table(&lines)
}

/// The total as a line that can be checked by hand: the dearest class is interest.
fn total(asked: &Asked, total: u64) -> Line {
    let rate = &RATES[0];
    let right = format!("{} x {}", asked.words(), mils(rate.both()));
    Line::new("total", charge(total), Equal, (asked.at(rate), right))
}

fn run(args: &Args) -> Outcome {
    let [] = args.files()?;
    let asked = Asked::new(args)?;
    let out = Out::beside(args, ["dearest", "the figures are printed"])?;
    let (file, sum) = book_of(&asked).map_err(no)?;
    let mut text = format!("{}\n{}", show(&[total(&asked, sum)]), rates(&asked));
    if let Some(out) = out {
        text += &length_line(out.to, out.write(&file)?);
    }
    print(&text)
}

#[cfg(test)]
mod tests {
    use super::*;

    /// Catches a limit that is one off, and one of the two that is not told.
    #[test]
    fn limits_are_told_in_words() {
        let told = |rows, most| Asked { rows, most }.limits();
        for (rows, most) in [(0, 1), (4_000, 1_000_000_000), (1, 1)] {
            assert_eq!(told(rows, most), None);
        }
        let many = "4,001 rows, and 4,000 are the most";
        assert_eq!(told(4_001, 1).unwrap(), many);
        let may = "and it may be 1 to 1,000,000,000";
        assert_eq!(
            told(4_000, 0).unwrap(),
            format!("a largest amount of 0, {may}")
        );
        let over = format!("a largest amount of 1,000,000,001, {may}");
        assert_eq!(told(0, 1_000_000_001).unwrap(), over);
        assert_eq!(
            told(4_001, 1_000_000_001).unwrap(),
            format!("{many}\n{over}")
        );
        let most = "18,446,744,073,709,551,615";
        let told = told(u64::MAX, u64::MAX).unwrap();
        assert!(told.contains(&format!("{most} rows")) && told.contains(&format!("of {most}, ")));
    }

    /// 3 rows of 100 are 300 thousands: 20.5%, 16%, 8% and 18.6% of them.
    #[test]
    fn rates_are_shown_by_class() {
        let asked = Asked { rows: 3, most: 100 };
        let lines = [
            "a unit at most    specific  general  together  3 rows x 100",
            "interest            80.000  125.000   205.000    61,500.000",
            "equity              80.000   80.000   160.000    48,000.000",
            "foreign exchange     0.000   80.000    80.000    24,000.000",
            "commodity            0.000  186.000   186.000    55,800.000",
        ];
        assert_eq!(rates(&asked), lines.join("\n") + "\n");
        let line = show(&[total(&asked, 61_500_000)]);
        assert_eq!(line, "total  61,500.000  = 3 rows x 100 x 205.000\n");
    }
}
