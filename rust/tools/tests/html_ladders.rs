//! The ladders of a page as tables: every figure of them is one that `ladder` prints.

mod common;
mod page;

use common::packed;
use page::samples::{lines, page, SAMPLES};
use page::{joined, Node};

/// The lines that `ladder` prints of a currency's section.
fn currency_lines(section: &Node) -> Vec<String> {
    let bands = section.cells("bands");
    assert_eq!(bands.len(), 15);
    let amounts = bands.iter().map(|cells| joined(&cells[..7]));
    let weighted = bands.iter().map(|cells| {
        let figures = joined(&cells[7..]);
        format!("{} {figures}", cells[1])
    });
    let steps = section.cells("steps");
    assert_eq!(steps.len(), 9);
    let charged = steps.iter().map(|cells| {
        let figures = joined(&cells[3..6]);
        format!("{} {figures}", cells[0])
    });
    amounts.chain(weighted).chain(charged).collect()
}

/// Holds the lines by which a section adds up to printed ones, which may be folded.
fn adds_up(section: &Node, printed: &[String]) {
    let by = section.cells("lines");
    assert_eq!(by.len(), 5);
    let printed = format!("{} ", printed.join(" "));
    let mut from = 0;
    for cells in by {
        let line = format!(" {} ", joined(&cells));
        let at = printed[from..].find(&line);
        from += at.unwrap_or_else(|| panic!("{line}"));
    }
}

/// Which zones the lines of `ladder` have long and short, by the section's steps.
fn sides(section: &Node) -> Vec<String> {
    let steps = section.cells("steps");
    let zones = |cells: &Vec<String>| {
        let words: Vec<&str> = cells[6].split([' ', ',']).collect();
        match words[..] {
            ["zone", long, "long", "", "zone", short, "short"] => {
                let mut sides = [format!("{long} long"), format!("{short} short")];
                let mut nets = [cells[1].clone(), cells[2].clone()];
                if long > short {
                    sides.reverse();
                    nets.reverse();
                }
                let matched = &cells[3];
                let [one, two] = sides;
                Some(format!(
                    "{} {one} {} {two} {} {matched}",
                    cells[0], nets[0], nets[1]
                ))
            }
            [""] => None,
            _ => panic!("{words:?}"),
        }
    };
    steps.iter().filter_map(zones).collect()
}

/// The number of a section's currency or commodity.
fn group<'a>(section: &'a Node, name: &str) -> Option<&'a str> {
    section.get("id").strip_prefix(name)
}

/// Catches a figure of a ladder that is another than `ladder` prints, is in another place or is left
/// out, and zones that are exchanged.
#[test]
fn ladders_of_currencies_are_those_of_ladder() {
    let mut seen = 0;
    for sample in SAMPLES {
        let book = packed(sample, "html-currencies");
        let page = page(&book);
        for section in page.named("section") {
            let Some(number) = group(section, "currency-") else {
                continue;
            };
            let printed = lines(&["ladder", &book, "--currency", number]);
            for line in currency_lines(section).into_iter().chain(sides(section)) {
                assert!(printed.contains(&line), "{sample} {number}: {line}");
            }
            adds_up(section, &printed);
            let met = |line: &&String| line.starts_with("zones ") && line.contains(" long ");
            let met = printed.iter().filter(met);
            let met = met.filter(|line| !line.ends_with("nothing"));
            assert_eq!(sides(section).len(), met.count(), "{sample} {number}");
            seen += 1;
        }
    }
    assert!(seen >= 10, "{seen}");
}

/// Catches the same of commodities.
#[test]
fn ladders_of_commodities_are_those_of_ladder() {
    let mut seen = 0;
    for sample in SAMPLES {
        let book = packed(sample, "html-commodities");
        let page = page(&book);
        for section in page.named("section") {
            let Some(number) = group(section, "commodity-") else {
                continue;
            };
            let printed = lines(&["ladder", &book, "--commodity", number]);
            let (bands, steps) = (section.cells("bands"), section.cells("steps"));
            assert_eq!((bands.len(), steps.len()), (7, 4));
            let amounts = bands.iter().map(|cells| joined(&cells[..4]));
            let carried = bands.iter().map(|cells| {
                let figures = joined(&cells[4..]);
                format!("{} {figures}", cells[0])
            });
            let steps = steps.iter().map(|cells| joined(cells));
            for line in amounts.chain(carried).chain(steps) {
                assert!(printed.contains(&line), "{sample} {number}: {line}");
            }
            adds_up(section, &printed);
            seen += 1;
        }
    }
    assert!(seen >= 4, "{seen}");
}
