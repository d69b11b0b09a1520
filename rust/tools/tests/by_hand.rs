//! The last lines of the stored ladders, checked as a user does who has the page and a pocket
//! calculator: each number is one of the tables above, and each line is true as it is printed.

mod pocket;

use pocket::{column, is_true, ladders, last, line, numbers, parts, Line};

/// Catches a number of the last lines that is not the tables', and a line that is not true.
#[test]
fn currencies_add_up_as_printed() {
    let ladders = ladders("currency");
    assert_eq!(ladders.len(), 27);
    for (name, text) in ladders {
        let [_, bands, _, _, steps, lines] = parts(&text);
        let lines: Vec<Line> = lines.iter().map(|text| line(text)).collect();
        let names: Vec<&str> = lines.iter().map(|line| line.name).collect();
        assert_eq!(
            names,
            ["gross", "gross", "residual", "charge", "2 x charge"]
        );
        assert!(lines.iter().all(is_true), "{name}");
        let [long, short] = [column(&bands, 3), column(&bands, 2)];
        // Of seven steps, then the residual: matched, per cent, disallowance.
        let matched = column(&steps[..7], 2);
        let residual = column(&steps[7..8], 2);
        let charge = last(&steps, "charge");
        let gross = 2 * matched + residual;
        let figures: Vec<i128> = lines.iter().map(|line| line.figure).collect();
        assert_eq!(
            figures,
            [gross, gross, residual, charge, 2 * charge],
            "{name}"
        );
        let larger_first = [long.max(short), long.min(short)];
        let right = |at: usize| numbers(lines[at].right);
        assert_eq!(right(0), [2_000, matched, residual], "{name}");
        assert_eq!(right(1), [long, short], "{name}");
        assert_eq!(right(2), larger_first, "{name}");
        assert_eq!(right(3), [residual], "{name}");
        assert_eq!(right(4), [gross, residual], "{name}");
    }
}

/// The same of commodities. What is carried into each band but the first is a step.
#[test]
fn commodities_add_up_as_printed() {
    let ladders = ladders("commodity");
    assert_eq!(ladders.len(), 8);
    for (name, text) in ladders {
        let [amounts, bands, charges, lines] = parts(&text);
        let lines: Vec<Line> = lines.iter().map(|text| line(text)).collect();
        let names: Vec<&str> = lines.iter().map(|line| line.name).collect();
        assert_eq!(names, ["gross", "gross", "residual", "carried", "charge"]);
        assert!(lines.iter().all(is_true), "{name}");
        let [long, short] = [1, 0].map(|from_end| column(&amounts, from_end));
        let matched = column(&bands, 1);
        let steps: Vec<i128> = (1..7)
            .map(|band| column(&bands[band..=band], 2).abs())
            .collect();
        let residual = column(&bands[6..], 0).abs();
        let (carried, charge) = (steps.iter().sum(), last(&charges, "charge"));
        let figures: Vec<i128> = lines.iter().map(|line| line.figure).collect();
        let gross = long + short;
        assert_eq!(figures, [gross, gross, residual, carried, charge], "{name}");
        let right = |at: usize| numbers(lines[at].right);
        assert_eq!(right(0), [2_000, matched, residual], "{name}");
        assert_eq!(right(1), [long, short], "{name}");
        assert_eq!(right(2), [long.max(short), long.min(short)], "{name}");
        assert_eq!(right(3), steps, "{name}");
        // A per cent of a thousand is ten currency units.
        let parts = [15 * gross, 135 * residual, 6 * carried];
        assert_eq!(right(4), parts, "{name}");
        let rates = [
            "(1.5% of gross)",
            "(13.5% of residual)",
            "(0.6% of carried)",
        ];
        let words = lines[4].right.split(" + ");
        let words: Vec<&str> = words.map(|part| part.split_once(' ').unwrap().1).collect();
        assert_eq!(words, rates, "{name}");
    }
}

/// The last lines of some samples, worked by hand in samples/README.md.
const BY_HAND: [(&str, [&str; 5]); 5] = [
    (
        "keyed.currency-7",
        [
            "gross 1,575.0 = 2 x 525.0 matched + 525.0 residual",
            "gross 1,575.0 = 1,050.0 weighted long + 525.0 weighted short",
            "residual 525.0 = 1,050.0 weighted long - 525.0 weighted short",
            "charge 735.000 >= 525.0 residual",
            "2 x charge 1,470.000 <= 1,575.0 gross + 525.0 residual",
        ],
    ),
    (
        "steps.currency-8",
        [
            "gross 952.0 = 2 x 472.5 matched + 7.0 residual",
            "gross 952.0 = 472.5 weighted long + 479.5 weighted short",
            "residual 7.0 = 479.5 weighted short - 472.5 weighted long",
            "charge 172.350 >= 7.0 residual",
            "2 x charge 344.700 <= 952.0 gross + 7.0 residual",
        ],
    ),
    (
        "steps.table.currency-8",
        [
            "gross 1,077.0 = 2 x 537.0 matched + 3.0 residual",
            "gross 1,077.0 = 540.0 weighted long + 537.0 weighted short",
            "residual 3.0 = 540.0 weighted long - 537.0 weighted short",
            "charge 282.400 >= 3.0 residual",
            "2 x charge 564.800 <= 1,077.0 gross + 3.0 residual",
        ],
    ),
    (
        "commodity.commodity-5",
        [
            "gross 3,000 = 2 x 1,400 matched + 200 residual",
            "gross 3,000 = 1,400 long + 1,600 short",
            "residual 200 = 1,600 short - 1,400 long",
            "carried 1,200 = 0 + 0 + 200 + 200 + 400 + 400",
            "charge 79,200.000 = 45,000.000 (1.5% of gross) + 27,000.000 (13.5% of residual) + \
             7,200.000 (0.6% of carried)",
        ],
    ),
    (
        "steps.commodity-5",
        [
            "gross 75 = 2 x 31 matched + 13 residual",
            "gross 75 = 44 long + 31 short",
            "residual 13 = 44 long - 31 short",
            "carried 66 = 10 + 6 + 9 + 11 + 10 + 20",
            "charge 3,276.000 = 1,125.000 (1.5% of gross) + 1,755.000 (13.5% of residual) + \
             396.000 (0.6% of carried)",
        ],
    ),
];

/// Catches a line that both calculations would have wrong.
#[test]
fn the_last_lines_are_those_worked_by_hand() {
    let all = [ladders("currency"), ladders("commodity")].concat();
    for (name, expected) in BY_HAND {
        let file = format!("{name}.txt");
        let (_, text) = all.iter().find(|(of, _)| *of == file).unwrap();
        let [lines] = parts(text);
        let squeezed = |line: &&str| line.split_whitespace().collect::<Vec<_>>().join(" ");
        let lines: Vec<String> = lines.iter().map(squeezed).collect();
        assert_eq!(lines, expected, "{name}");
    }
}

/// Catches a calculator that finds every line true.
#[test]
fn a_line_that_is_not_true_is_seen() {
    for (text, expected) in [
        (
            "gross   1,575.0   = 2 x 525.0 matched + 525.0 residual",
            true,
        ),
        (
            "gross   1,575.1   = 2 x 525.0 matched + 525.0 residual",
            false,
        ),
        (
            "gross   1,575.0   = 2 x 524.9 matched + 525.0 residual",
            false,
        ),
        (
            "residual   5.0   = 8.5 weighted short - 3.5 weighted long",
            true,
        ),
        (
            "residual   5.0   = 3.5 weighted long - 8.5 weighted short",
            false,
        ),
        ("charge   0.999  >= 1.0 residual", false),
        ("charge   1.000  >= 1.0 residual", true),
        ("before   1.001  > 1.000 limit", true),
        ("before   1.000  > 1.000 limit", false),
        ("2 x charge   1.001  <= 0.5 gross + 0.5 residual", false),
        ("2 x charge   1.000  <= 0.5 gross + 0.5 residual", true),
        (
            "charge   2.000  = 1.500 (1.5% of gross) + 0.500 (0.6% of carried)",
            true,
        ),
        (
            "charge   2.001  = 1.500 (1.5% of gross) + 0.500 (0.6% of carried)",
            false,
        ),
    ] {
        assert_eq!(is_true(&line(text)), expected, "{text}");
    }
}
