//! What is stored of options, checked as a user does who has the page and a pocket calculator: the sums of
//! each class, the total, and the lines by which the whole charge adds up.

mod pocket;

use pocket::{is_true, line, numbers, stored, Line};

/// The four parts of a text, without their titles.
fn parts(text: &str) -> [Vec<&str>; 4] {
    let parts: Vec<Vec<&str>> = text
        .split("\n\n")
        .map(|part| part.lines().skip(1).collect())
        .collect();
    parts.try_into().unwrap()
}

/// The last two numbers of a line: gamma and vega.
fn last_two(line: &str) -> [i128; 2] {
    let numbers = numbers(line);
    numbers[numbers.len() - 2..].try_into().unwrap()
}

/// The figures of the three classes, each the sum of the lines above it.
fn classes(lines: &[&str]) -> Vec<[i128; 2]> {
    let (mut classes, mut sum) = (Vec::new(), [0, 0]);
    for line in &lines[1..] {
        let own = last_two(line);
        if line.split_whitespace().nth(1) == Some("all") {
            assert_eq!(own, sum, "{line}");
            classes.push(own);
            sum = [0, 0];
        } else {
            sum = [sum[0] + own[0], sum[1] + own[1]];
        }
    }
    classes
}

/// Catches a sum that is not of its lines, and gamma or vega in a charge of the book.
#[test]
fn options_add_up_as_printed() {
    let texts = stored(|name| name.ends_with(".options.txt"));
    assert_eq!(texts.len(), 1);
    for (name, text) in texts {
        let [_, greeks, charges, lines] = parts(&text);
        let classes = classes(&greeks);
        assert_eq!(classes.len(), 3, "{name}");
        let charges = numbers(&charges.join("\n"));
        let [six @ .., total] = &charges[..] else {
            panic!("{name}: no charges");
        };
        assert_eq!(six.iter().sum::<i128>(), *total, "{name}");
        let lines: Vec<Line> = lines.into_iter().map(line).collect();
        let names: Vec<&str> = lines.iter().map(|line| line.name).collect();
        assert_eq!(names, ["gamma", "vega", "whole"]);
        assert!(lines.iter().all(|line| line.sign == "=" && is_true(line)));
        for at in [0, 1] {
            let own: Vec<i128> = classes.iter().map(|class| class[at]).collect();
            assert_eq!(numbers(lines[at].right), own, "{name}");
        }
        let of_whole = [*total, lines[0].figure, lines[1].figure];
        assert_eq!(numbers(lines[2].right), of_whole, "{name}");
    }
}

/// The rows, gamma and vega of the sample, worked by hand in samples/README.md.
const BY_HAND: [&str; 17] = [
    "equity 3 ordinary 0 0 970",
    "equity 3 ordinary 0 0 567",
    "equity 3 index 0 0 1,500",
    "fx 5 none 0 0 5,120",
    "fx 5 none 0 4,880 0",
    "fx 0 none 0 901 0",
    "commodity 4 none 1,081 0 18,025",
    "commodity 4 none 1,081 4,000 0",
    "commodity 9 none 90 0 385",
    "equity 3 8,496.000 4,000.000",
    "equity 8 896.000 6,500.000",
    "fx 0 0.000 14,500.000",
    "fx 5 275,200.000 154,000.000",
    "commodity 4 235,125.000 210,000.000",
    "commodity 9 0.000 15,000.000",
    "total 2,780,250.000",
    "whole 3,703,967.000 = 2,780,250.000 (book) + 519,717.000 (gamma) + 404,000.000 (vega)",
];

/// Catches a line that both calculations would have wrong.
#[test]
fn the_lines_are_those_worked_by_hand() {
    let [(_, text)] = &stored(|name| name == "options.options.txt")[..] else {
        panic!("no options");
    };
    let squeezed = |line: &str| line.split_whitespace().collect::<Vec<_>>().join(" ");
    let lines: Vec<String> = text.lines().map(squeezed).collect();
    let mut at = 0;
    for expected in BY_HAND {
        let rest = lines[at..].iter().position(|line| line == expected);
        at += rest.unwrap_or_else(|| panic!("no line {expected} after {at}")) + 1;
    }
}
