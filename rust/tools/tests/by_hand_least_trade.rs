//! What is stored of a least trade, checked as a user does who has the page and a pocket calculator.

mod pocket;

use pocket::{is_true, last, line, numbers, stored, Line};

/// The text, its parts between empty lines.
fn parts(text: &str) -> Vec<Vec<&str>> {
    let parts = text.split("\n\n");
    parts.map(|part| part.lines().collect()).collect()
}

/// The amounts of band 5 of a table of bands: long and short.
fn band_5(lines: &[&str]) -> [i128; 2] {
    let cells: Vec<&str> = lines[6].split_whitespace().collect();
    assert_eq!(cells[..2], ["2", "5"]);
    let cell = |at: usize| numbers(cells[at])[0] / 1_000;
    [cell(5), cell(6)]
}

/// By hand: each unit sold sets 17.5 of what zone 3 has left off at 40%, 10.5 less: 735 - 30 x 10.5 is 420,
/// 735 - 29 x 10.5 is 430.5. Catches charges above the ladders that are not theirs, and a ladder in which
/// anything but the amount is another.
#[test]
fn the_charges_are_those_of_the_ladders() {
    let [(_, text)] = &stored(|name| name == "zones.least-trade.txt")[..] else {
        panic!("no least trade");
    };
    let parts = parts(text);
    let [title, charges, first @ .., _] = &parts[..] else {
        panic!("{} parts", parts.len());
    };
    // A title, two tables of bands, the zones, their matches, the charges, and the lines that add up.
    let [_, before, _, _, _, steps, _, after_title, after, _, _, _, after_steps] = first else {
        panic!("{} parts", parts.len());
    };
    assert!(title[0].starts_with("short in band 5 of currency 7: 30 thousands "));
    let lines: Vec<Line> = charges.iter().map(|text| line(text)).collect();
    let told: Vec<(&str, i128, &str)> = lines
        .iter()
        .map(|line| (line.name, line.figure, line.sign))
        .collect();
    let by_hand = [
        ("before", 735_000, ">"),
        ("with short 30", 420_000, "<="),
        ("with short 29", 430_500, ">"),
    ];
    assert_eq!(told, by_hand);
    assert!(lines.iter().all(is_true));
    assert!(lines.iter().all(|line| numbers(line.right) == [420_000]));
    assert_eq!(last(steps, "charge"), 735_000);
    assert_eq!(last(after_steps, "charge"), 420_000);
    assert_eq!(after_title[0], "the ladder with short 30 in band 5");
    assert_eq!([band_5(before), band_5(after)], [[0, 30], [0, 60]]);
    let squeezed = |line: &&str| line.split_whitespace().collect::<Vec<_>>().join(" ");
    for at in (1..16).filter(|at| *at != 6) {
        assert_eq!(squeezed(&before[at]), squeezed(&after[at]));
    }
}
