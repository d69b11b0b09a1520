//! The stored charges of small banks, checked as a user does who has the page and a pocket
//! calculator: the positions of each line, the sums of each column, the charges by these.

mod pocket;

use pocket::{is_true, line, numbers, stored, Line};

/// The lines of a table, without its titles: the figures of each group, and of what comes last.
/// A group's own number, where it has one, is left out.
fn cells(part: &str, columns: usize) -> Vec<Vec<i128>> {
    let last = |line: &str| {
        let numbers = numbers(line);
        numbers[numbers.len() - columns..].to_vec()
    };
    part.lines().skip(1).map(last).collect()
}

/// The sums of the columns.
fn sums(lines: &[Vec<i128>], columns: usize) -> Vec<i128> {
    let sum = |column: usize| lines.iter().map(|line| line[column]).sum();
    (0..columns).map(sum).collect()
}

/// The currencies: each net stands on its side, the sums are of those without gold. The charge
/// is 8% of the greater sum and of gold's net, 80 units for each thousand.
fn exchange(part: &str, name: &str) -> [i128; 2] {
    let lines = cells(part, 4);
    for line in &lines {
        let signed = line[0] - line[1];
        assert_eq!(line[2] - line[3], signed, "{name}");
    }
    let [currencies @ .., all, gold] = &lines[..] else {
        panic!("{name}: no sums");
    };
    for line in currencies.iter().chain([gold]) {
        assert!(line[2] == 0 || line[3] == 0, "{name}");
    }
    assert_eq!(*all, sums(currencies, 4), "{name}");
    [80 * all[2].max(all[3]), 80 * (gold[2] + gold[3])]
}

/// The commodities: net, gross and charge of each, and their sums.
fn commodity(part: &str, name: &str) -> [i128; 2] {
    let lines = cells(part, 5);
    let [commodities @ .., all] = &lines[..] else {
        panic!("{name}: no sums");
    };
    for line in commodities {
        let [long, short, net, gross, charge] = line[..] else {
            panic!("{name}: not five figures");
        };
        assert_eq!(net, long.max(short) - long.min(short), "{name}");
        assert_eq!(gross, long + short, "{name}");
        assert_eq!(charge, 150 * net + 30 * gross, "{name}");
    }
    assert_eq!(*all, sums(commodities, 5), "{name}");
    [150 * all[2], 30 * all[3]]
}

/// Catches a number that is not the tables', a sum that is not of its column, and a line that
/// is not true.
#[test]
fn small_banks_add_up_as_printed() {
    let texts = stored(|name| name.ends_with(".small-bank.txt"));
    assert_eq!(texts.len(), 4);
    for (name, text) in texts {
        let [figures, title, currencies, commodities, lines] =
            text.split("\n\n").collect::<Vec<_>>()[..]
        else {
            panic!("{name}: not five parts");
        };
        assert_eq!(title, "amounts in thousands, charges in currency units");
        let lines: Vec<Line> = lines.lines().map(line).collect();
        let names: Vec<&str> = lines.iter().map(|line| line.name).collect();
        assert_eq!(names, ["foreign exchange", "commodity", "total"]);
        assert!(lines.iter().all(|line| line.sign == "=" && is_true(line)));
        let above: Vec<i128> = lines.iter().map(|line| line.figure).collect();
        assert_eq!(numbers(figures), above, "{name}");
        let right = |at: usize| numbers(lines[at].right);
        assert_eq!(right(0), exchange(currencies, &name), "{name}");
        assert_eq!(right(1), commodity(commodities, &name), "{name}");
        assert_eq!(right(2), above[..2], "{name}");
    }
}

/// The last lines of two samples, worked by hand in document 01 and in samples/README.md.
const BY_HAND: [(&str, [&str; 3]); 2] = [
    (
        "fx.small-bank.txt",
        [
            "foreign exchange 26,800.000 = 24,000.000 (8% of net long) + 2,800.000 (8% of gold)",
            "commodity 0.000 = 0.000 (15% of net) + 0.000 (3% of gross)",
            "total 26,800.000 = 26,800.000 + 0.000",
        ],
    ),
    (
        "small-bank.small-bank.txt",
        [
            "foreign exchange 79,200.000 = 69,600.000 (8% of net short) + 9,600.000 (8% of gold)",
            "commodity 57,600.000 = 30,000.000 (15% of net) + 27,600.000 (3% of gross)",
            "total 136,800.000 = 79,200.000 + 57,600.000",
        ],
    ),
];

/// Catches a line that both calculations would have wrong.
#[test]
fn the_last_lines_are_those_worked_by_hand() {
    for (name, expected) in BY_HAND {
        let [(_, text)] = &stored(|of| of == name)[..] else {
            panic!("no {name}");
        };
        let squeezed = |line: &str| line.split_whitespace().collect::<Vec<_>>().join(" ");
        let lines: Vec<String> = text.lines().map(squeezed).collect();
        assert_eq!(lines[lines.len() - 3..], expected, "{name}");
    }
}
