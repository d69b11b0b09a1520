//! `pack`: CSV text into a book or an option table.

use crate::cli::{no, usage, Args, Choice, Command, Outcome, Part, Value};
use crate::files::{apart, input, write};
use crate::load::{self, read_text, Given};
use crate::options;
use crate::report::explain;
use crate::written::names_text;
use std::path::Path;

pub const COMMAND: Command = Command {
    name: "pack",
    brief: "a CSV file into a book, or into an option table",
    forms: &[
        "CSV BOOK [--unchecked]",
        "--options CSV TABLE [--unchecked]",
    ],
    about: &[
        Part::Text(
            "Writes the rows of a CSV file as a book. Commands that take a book take its text \
             too. The header has the columns",
        ),
        Part::Lines(&["class,group,kind,days,coupon,issue,long,short"]),
        Part::Text("in any order and case, and each other line is one row."),
        Part::Words(&[
            ("class", "interest, equity, fx or commodity"),
            (
                "kind",
                "of interest government, qualifying, other or floating; of equity ordinary, \
                 diversified or index; of fx and commodity none",
            ),
            (
                "others",
                "whole numbers: coupon in basis points, long and short in thousands. An empty \
                 issue is 0, and so are days and coupon where only 0 is accepted; all else must \
                 be there",
            ),
        ]),
        Part::Text(
            "The text is UTF-8, as people and spreadsheets write it. A comma, a semicolon or a \
             tab separates the fields, whichever the header has or a first line such as sep=; \
             tells. Fields may be in double quotes. Lines that are empty or begin with # are \
             passed over, and so are empty columns at the end.",
        ),
        Part::Text(
            "A column that is missing, stands twice or has another name is refused, and so are \
             numbers with thousands separators, decimals, signs, units or formulas, and a row \
             that begins with # and no blank behind it, as errors of spreadsheets do. Every bad \
             line is told with all its faults, up to 20 lines.",
        ),
        Part::Text(
            "Coupons of 1 to 20 look like per cents, final maturities of 1 to 30 like years, and \
             deltas and volatilities of 1 to 100 like whole ones: they are taken in four digits \
             alone, so that 8 is refused and 0008 is 0.08%.",
        ),
        Part::Text(
            "A book has at most 4,000 rows, of groups 0 to 31, with issues up to 65,535 and \
             amounts up to 1,000,000,000; its text is read up to 4,000,000 bytes, that of an \
             option table up to 1,000,000.",
        ),
        Part::Text(
            "Of kind floating, a floating-rate note of qualifying paper, days run to the next \
             fixing, 0 to 360, and coupon holds the days to final maturity.",
        ),
        Part::Text(
            "Lines may mix classes: rows are sorted by class and keep their order within it. A \
             book that the library refuses is not written, and the error names the line.",
        ),
        Part::Text(
            "Books and tables are written packed, as bytes: an output whose name ends in .csv, in \
             any case, is refused. market-risk unpack writes text.",
        ),
        Part::Text(
            "With --options the text is a table of options, which market-risk options takes. \
             Its header has the columns",
        ),
        Part::Lines(&["class,group,right,kind,amount,delta,gamma,vega,volatility,days"]),
        Part::Text(
            "and each other line is one option; options keep their order. Days of equity and fx \
             may be empty.",
        ),
        Part::Words(&[
            ("class", "equity, fx or commodity; kind as above"),
            ("right", "bought call, bought put, sold call or sold put"),
            ("amount", "of the underlying, in thousands"),
            (
                "delta",
                "in ten-thousandths, without its sign: 0.7210 is 7210",
            ),
            (
                "gamma",
                "by how many ten-thousandths delta changes when the underlying moves by 1%",
            ),
            ("vega", "in thousands for a point of volatility"),
            ("volatility", "in hundredths of a point"),
            ("days", "of the underlying, as in a book"),
        ]),
    ],
    options: &[
        Choice::flag("--options", "make an option table of the text"),
        Choice::flag(
            "--unchecked",
            "write the book or table even if it would be refused; a kind that the class does \
             not know, and a class, right or kind that an option cannot have, may then be \
             given by its number",
        ),
    ],
    operands: Some(Value::File("BOOK")),
    run,
};

/// Why a book is refused, if it is.
fn check(given: &Given) -> Result<(), String> {
    market_risk::check(&given.bytes).map_err(|refusal| explain(given, &refusal))
}

/// Refuses the name of text for bytes.
fn packed_name(to: &Path) -> Outcome {
    let to_do = "name a file that does not end in .csv; market-risk unpack writes text";
    match names_text(to) {
        true => Err(usage(&format!(
            "pack: {} would be bytes and no text; {to_do}",
            to.display()
        ))),
        false => Ok(()),
    }
}

fn run(args: &Args) -> Outcome {
    let [from, to] = args.files()?;
    apart(to, &[from])?;
    packed_name(to)?;
    let of_options = args.flag("--options");
    let given = match of_options {
        true => read_text(from, &load::OPTIONS),
        false => read_text(from, &load::BOOK),
    }?;
    let checked = match (args.flag("--unchecked"), of_options) {
        (true, _) => Ok(()),
        (false, true) => options::check(&given),
        (false, false) => check(&given),
    };
    checked.map_err(|why| no(format!("{}: {why}", input(from))))?;
    write(to, &given.bytes)
}

#[cfg(test)]
mod tests {
    use super::*;
    use books::csv::HEADER;

    /// The first line that is told of a book of these lines, or its bytes.
    fn pack(lines: &str) -> Result<Vec<u8>, String> {
        let given = load::book(&format!("{HEADER}\n{lines}")).map_err(|why| why.to_string())?;
        let first = |why: String| why.lines().next().unwrap_or_default().to_string();
        check(&given).map(|()| given.bytes).map_err(first)
    }

    #[test]
    fn a_refusal_names_the_line() {
        let what = pack("fx,40,none,0,0,0,5,0\n\ninterest,1,other,0,0,0,0,0\n").unwrap_err();
        assert_eq!(what, "line 4: refused 8: both amounts zero or both nonzero");
    }

    /// Catches a broken note whose line is not told, and a final maturity held to a coupon's
    /// limit.
    #[test]
    fn a_floating_rate_note_is_packed_or_names_its_line() {
        let note = |fixing: &str, maturity: &str| {
            let bond = "interest,1,other,36000,10000,0,5,0";
            pack(&format!(
                "{bond}\ninterest,1,floating,{fixing},{maturity},0,5,0\n"
            ))
        };
        let book = note("90", "36000").unwrap();
        assert_eq!(book[24..30], [1, 4, 90, 0, 0xa0, 0x8c]);
        assert!(note("360", "360").is_ok());
        let why = "fixing over 360 days, or final maturity over 36,000 or before fixing";
        for (fixing, maturity) in [("361", "2880"), ("90", "36001"), ("90", "89")] {
            let what = note(fixing, maturity).unwrap_err();
            assert_eq!(what, format!("line 3: refused 15: {why}"));
        }
    }
}
