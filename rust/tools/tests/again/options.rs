//! The lines of an option table.

use super::{amount, mils, report};
use books::names::kind_name;
use books::options::names::class_name;
use books::options::OptionRow;
use books::{Book, Row};
use std::collections::BTreeSet;

/// The classes of options, by number.
const CLASSES: [u8; 3] = [2, 3, 4];

/// Whether an option is bought.
fn bought(option: &OptionRow) -> bool {
    matches!(option.right, 0 | 1)
}

/// The book of the deltas (A.5, 4 and 6): an equivalent position in the underlying, up to the next
/// thousand, long for bought calls and sold puts.
fn deltas(options: &[OptionRow]) -> Book {
    let mut book = Book::default();
    for option in options.iter().filter(|option| option.delta > 0) {
        let parts = u64::from(option.amount) * u64::from(option.delta);
        let (whole, rest) = (parts / 10_000, parts % 10_000);
        let amount = (whole + u64::from(rest > 0)) as u32;
        let row = Row::default().with_group(option.group);
        let row = row.with_kind(option.kind).with_days(option.days);
        let long = matches!(option.right, 0 | 3);
        let [long, short] = if long { [amount, 0] } else { [0, amount] };
        book.classes[usize::from(option.class) - 1].push(row.with_sides(long, short));
    }
    book
}

/// The lines of the rows.
fn row_lines(book: &Book) -> Vec<String> {
    let mut lines = vec!["class group kind days long short".to_string()];
    for class in CLASSES {
        let (name, place) = (class_name(class), usize::from(class) - 1);
        lines.extend(book.classes[place].iter().map(|row| {
            let numbers = [i128::from(row.days), row.long.into(), row.short.into()];
            let (group, kind) = (row.group, kind_name(place, row.kind));
            format!("{name} {group} {kind} {}", numbers.map(amount).join(" "))
        }));
    }
    lines
}

/// What the options that are sold have more of something than those that are bought.
fn sold_more(options: &[OptionRow], of: impl Fn(&OptionRow) -> i128) -> i128 {
    let side = |side: bool| -> i128 {
        let own = options.iter().filter(|option| bought(option) == side);
        own.map(&of).sum()
    };
    side(false) - side(true)
}

/// Gamma and vega of the options on one underlying, in mils. Gamma (A.5, 7, i to v): half of the change of
/// delta for each per cent, a ten-thousandth of a thousand being 100 mils, over a move of 8 or 15 per
/// cent. Vega (A.5, 7, vi): for a quarter of the volatility, of a thousand and a hundredth of a point.
fn greeks(options: &[OptionRow]) -> [i128; 2] {
    let moved = if options[0].class == 4 { 15 } else { 8 };
    let impact = |option: &OptionRow| {
        let for_one_per_cent = i128::from(option.amount) * i128::from(option.gamma) * 100;
        for_one_per_cent * moved * moved / 100
    };
    let vega = |option: &OptionRow| {
        let points = i128::from(option.volatility) * 25;
        i128::from(option.vega) * points * 1_000_000 / 10_000
    };
    let twice = sold_more(options, impact).max(0);
    [twice / 2 + twice % 2, sold_more(options, vega).abs()]
}

/// The lines of gamma and vega, and the sums of each class.
fn greek_lines(options: &[OptionRow]) -> (Vec<String>, [[i128; 2]; 3]) {
    let mut lines = vec!["class group gamma vega".to_string()];
    let sums = CLASSES.map(|class| {
        let of_class = options.iter().filter(|option| option.class == class);
        let groups: BTreeSet<u8> = of_class.clone().map(|option| option.group).collect();
        let mut line = |group: String, figures: [i128; 2]| {
            let (class, figures) = (class_name(class), figures.map(mils).join(" "));
            lines.push(format!("{class} {group} {figures}"));
        };
        let mut sums = [0, 0];
        for group in groups {
            let own = of_class.clone().filter(|option| option.group == group);
            let own = greeks(&own.copied().collect::<Vec<_>>());
            line(group.to_string(), own);
            sums = [sums[0] + own[0], sums[1] + own[1]];
        }
        line("all".into(), sums);
        sums
    });
    (lines, sums)
}

/// All lines of an option table.
pub fn options(options: &[OptionRow]) -> Vec<String> {
    let book = deltas(options);
    let (greek_lines, sums) = greek_lines(options);
    let bytes = book.encode().unwrap();
    let total = i128::from(second::charge(&bytes, &second::table()).total);
    let sum = |at: usize| sums.iter().map(|class| class[at]).sum::<i128>();
    let line = |name: &str, at: usize| {
        let parts = [0, 1, 2].map(|class: usize| {
            let name = class_name(CLASSES[class]);
            format!("{} ({name})", mils(sums[class][at]))
        });
        format!("{name} {} = {}", mils(sum(at)), parts.join(" + "))
    };
    let [gamma, vega] = [sum(0), sum(1)];
    let [of_book, of_gamma, of_vega] = [total, gamma, vega].map(mils);
    let all = mils(total + gamma + vega);
    let title = |title: &str| vec![title.to_string()];
    let beside = "the whole charge: gamma and vega are in none of the charges of the book";
    [
        title("the book of the deltas, amounts in thousands"),
        row_lines(&book),
        title(""),
        title("gamma and vega, in currency units"),
        greek_lines,
        title(""),
        title("the charges of the book, in currency units"),
        report(&bytes, &second::table()),
        title(""),
        title(beside),
        vec![
            line("gamma", 0),
            line("vega", 1),
            format!("whole {all} = {of_book} (book) + {of_gamma} (gamma) + {of_vega} (vega)"),
        ],
    ]
    .concat()
}
