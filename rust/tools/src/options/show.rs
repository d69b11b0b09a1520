//! What is printed of options.

use super::ask::{Alone, Answer};
use super::greeks::Greeks;
use crate::lines::{self, parts, Line, Shown, Sign::Equal};
use crate::report::figures;
use crate::text::{mils, table, whole};
use books::names::{kind_name, CLASS_NAMES};
use books::options::names::class_names;
use books::Book;
use market_risk::Report;

/// A line of words.
fn words<const N: usize>(words: [&str; N]) -> Vec<String> {
    words.map(String::from).to_vec()
}

/// The rows of the book of the deltas, in their order.
fn rows(book: &Book) -> String {
    let mut lines = vec![words(["class", "group", "kind", "days", "long", "short"])];
    for (class, rows) in book.classes.iter().enumerate() {
        lines.extend(rows.iter().map(|row| {
            vec![
                CLASS_NAMES[class].into(),
                row.group.to_string(),
                kind_name(class, row.kind),
                whole(row.days),
                whole(row.long),
                whole(row.short),
            ]
        }));
    }
    table(&lines)
}

/// A line of gamma and vega.
fn greeks_line(class: &str, group: String, greeks: &Greeks) -> Vec<String> {
    let (gamma, vega) = (mils(greeks.gamma), mils(greeks.vega));
    vec![class.into(), group, gamma, vega]
}

/// Gamma and vega of each underlying, and below them of their class.
fn greeks(answer: &Answer, groups: &[Alone]) -> String {
    let mut lines = vec![words(["class", "group", "gamma", "vega"])];
    let classes = class_names().iter().zip(answer.greeks()).enumerate();
    for (at, (name, all)) in classes {
        let own = groups
            .iter()
            .filter(|((class, _), _)| *class as usize == at + 2);
        for ((_, group), alone) in own {
            lines.push(greeks_line(name, group.to_string(), &alone.greeks()[at]));
        }
        lines.push(greeks_line(name, "all".into(), &all));
    }
    table(&lines)
}

/// A figure of the three classes, added up.
fn by_class(classes: [Greeks; 3], figure: fn(&Greeks) -> i128) -> Shown {
    let [equity, exchange, commodity] = classes.map(|class| figure(&class));
    parts([
        (equity, "equity"),
        (exchange, "fx"),
        (commodity, "commodity"),
    ])
}

/// The lines by which the whole charge adds up.
fn lines(answer: &Answer) -> String {
    let [gamma, vega] = [
        by_class(answer.greeks(), |class| class.gamma),
        by_class(answer.greeks(), |class| class.vega),
    ];
    let whole = parts([
        (answer.told.total.into(), "book"),
        (gamma.0, "gamma"),
        (vega.0, "vega"),
    ]);
    let line = |name, sum: Shown| Line::new(name, (sum.0, mils(sum.0)), Equal, sum);
    lines::show(&[
        line("gamma", gamma),
        line("vega", vega),
        line("whole", whole),
    ])
}

/// All that is printed, in four parts.
pub fn text(answer: &Answer, groups: &[Alone], report: &Report) -> String {
    let book = Book::decode(&answer.file).unwrap_or_default();
    let parts = [
        ("the book of the deltas, amounts in thousands", rows(&book)),
        ("gamma and vega, in currency units", greeks(answer, groups)),
        (
            "the charges of the book, in currency units",
            figures(report),
        ),
        (
            "the whole charge: gamma and vega are in none of the charges of the book",
            lines(answer),
        ),
    ];
    parts
        .map(|(title, part)| format!("{title}\n{part}"))
        .join("\n")
}

#[cfg(test)]
mod tests {
    use super::super::ask::{of_table, of_underlyings};
    use super::*;
    use crate::load::option_table;
    use books::options::decode;
    use market_risk::Table;

    /// What is printed of the options of some lines.
    fn printed(lines: &[&str]) -> String {
        let header = books::options::csv::HEADER;
        let given = option_table(&format!("{header}\n{}", lines.join("\n"))).unwrap();
        let answer = of_table(&given).unwrap();
        let groups = of_underlyings(&decode(&given.bytes).unwrap()).unwrap();
        let report = market_risk::charge(&answer.file, &Table::amendment());
        text(&answer, &groups, &report.unwrap())
    }

    /// By hand. Short 18,025 of commodity 4 costs 15%; long 501 of gold 8%. Commodity 4: 25,000 x 170 x
    /// 225 / 2 of gamma, 84 x 2,000 x 2,500 of vega. Gold is bought: 3 x 1,000 x 2,500 of vega alone.
    /// The index has delta 0: 4,000 x 7 x 64 / 2 and 1 x 2,600 x 2,500.
    #[test]
    fn four_parts_by_hand() {
        let expected = "\
the book of the deltas, amounts in thousands
class      group  kind   days  long   short
fx             0  none      0   501       0
commodity      4  none  1,081     0  18,025

gamma and vega, in currency units
class      group        gamma         vega
equity         8      896.000    6,500.000
equity       all      896.000    6,500.000
fx             0        0.000    7,500.000
fx           all        0.000    7,500.000
commodity      4  478,125.000  420,000.000
commodity    all  478,125.000  420,000.000

the charges of the book, in currency units
interest specific          0.000
interest general           0.000
equity specific            0.000
equity general             0.000
foreign exchange      40,080.000
commodity          2,703,750.000
total              2,743,830.000

the whole charge: gamma and vega are in none of the charges of the book
gamma    479,021.000  = 896.000 (equity) + 0.000 (fx) + 478,125.000 (commodity)
vega     434,000.000  = 6,500.000 (equity) + 7,500.000 (fx) + 420,000.000 (commodity)
whole  3,656,851.000  = 2,743,830.000 (book) + 479,021.000 (gamma) + 434,000.000 (vega)
";
        let lines = [
            "commodity,4,sold call,none,25000,7210,170,84,2000,1081",
            "equity,8,sold put,index,4000,0,7,1,2600,0",
            "fx,0,bought call,none,1000,5001,60,3,1000,0",
        ];
        assert_eq!(printed(&lines), expected);
    }

    /// Catches classes that are left out where they have no options.
    #[test]
    fn a_table_without_options_has_its_lines() {
        let text = printed(&[]);
        let parts: Vec<&str> = text.split("\n\n").collect();
        assert_eq!(parts[0].lines().count(), 2);
        let lines = [
            "gamma and vega, in currency units",
            "class      group  gamma   vega",
            "equity       all  0.000  0.000",
            "fx           all  0.000  0.000",
            "commodity    all  0.000  0.000",
        ];
        assert_eq!(parts[1].lines().collect::<Vec<_>>(), lines);
        let whole = "\nwhole  0.000  = 0.000 (book) + 0.000 (gamma) + 0.000 (vega)\n";
        assert!(text.ends_with(whole), "{text}");
    }
}
