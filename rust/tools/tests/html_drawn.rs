//! The drawings of a page: bars as long as their figures, and an arrow for each match between zones.

mod common;
mod page;

use common::{packed, prints};
use page::{parse, Node};

/// A figure as a table prints it.
fn figure(text: &str) -> f64 {
    text.replace(',', "").parse().unwrap()
}

/// The sections of a sample's page whose names begin so.
fn sections(page: Node, name: &str) -> Vec<Node> {
    let body = page.children.into_iter().find(|part| part.name == "body");
    let sections = body.unwrap().children.into_iter();
    sections
        .filter(|part| part.name == "section" && part.get("id").starts_with(name))
        .collect()
}

/// The page of a sample.
fn page_of(sample: &str) -> Node {
    let book = packed(sample, "html-drawn");
    parse(&prints(&["html", &book, "-o", "-"]))
}

/// What a bar stands for, and how high it is.
fn bars(section: &Node, class: &str) -> Vec<(String, f64)> {
    let bars = section.classed(class).into_iter();
    let bars = bars.filter(|bar| bar.name == "rect");
    bars.map(|bar| (bar.title().to_string(), bar.number("height")))
        .collect()
}

/// The bars that a table's column asks for: none of zero.
fn expected(cells: &[Vec<String>], column: usize, word: &str) -> Vec<String> {
    let rows = cells.iter().enumerate();
    let rows = rows.filter(|(_, cells)| figure(&cells[column]).abs() > 0.0);
    rows.map(|(band, cells)| format!("band {band}: {} {word}", cells[column]))
        .collect()
}

/// The figure in the title of a bar.
fn told(title: &str) -> f64 {
    figure(title.split(' ').nth(2).unwrap())
}

/// Holds heights to figures: one scale for all bars of a drawing.
fn on_one_scale(bars: &[(String, f64)]) {
    let most = bars
        .iter()
        .max_by(|one, two| told(&one.0).total_cmp(&told(&two.0)));
    let Some((title, height)) = most else {
        return;
    };
    let each = height / told(title);
    for (title, height) in bars {
        let right = told(title) * each;
        assert!(
            (height - right).abs() < 0.01,
            "{title}: {height}, not {right}"
        );
    }
}

/// Catches a bar of another length, of another band, of the other side, or too many or too few.
#[test]
fn bars_of_currencies_are_as_long_as_their_figures() {
    for sample in ["mixed", "steps", "treasury", "netting"] {
        for section in sections(page_of(sample), "currency-") {
            let cells = section.cells("bands");
            let mut all = Vec::new();
            for (class, column) in [("long", 7), ("short", 8)] {
                let drawn = bars(&section, class);
                let titles: Vec<String> = drawn.iter().map(|bar| bar.0.clone()).collect();
                assert_eq!(titles, expected(&cells, column, class), "{sample}");
                all.extend(drawn);
            }
            let matched = bars(&section, "matched");
            let twice = |word: &str| expected(&cells, 9, &format!("matched of the {word}"));
            let mut titles: Vec<String> = matched.iter().map(|bar| bar.0.clone()).collect();
            let mut right = [twice("long"), twice("short")].concat();
            titles.sort();
            right.sort();
            assert_eq!(titles, right, "{sample}");
            all.extend(matched);
            on_one_scale(&all);
        }
    }
}

/// Catches the same of commodities, and what is carried in and out.
#[test]
fn bars_of_commodities_are_as_long_as_their_figures() {
    for sample in ["mixed", "steps", "commodity", "small-bank"] {
        for section in sections(page_of(sample), "commodity-") {
            let cells = section.cells("bands");
            let mut all = Vec::new();
            for (class, column) in [("long", 2), ("short", 3)] {
                let drawn = bars(&section, class);
                let titles: Vec<String> = drawn.iter().map(|bar| bar.0.clone()).collect();
                assert_eq!(titles, expected(&cells, column, class), "{sample}");
                all.extend(drawn);
            }
            let carried = bars(&section, "carried");
            let steps = section.classed("carry");
            let right: Vec<f64> = cells.iter().map(|cells| figure(&cells[4])).collect();
            let right: Vec<f64> = right
                .into_iter()
                .filter(|carried| *carried != 0.0)
                .collect();
            assert_eq!((carried.len(), steps.len()), (right.len(), right.len()));
            for ((bar, step), right) in carried.iter().zip(steps).zip(right) {
                let side = if right > 0.0 { "long" } else { "short" };
                assert_eq!(told(&bar.0), right.abs());
                assert!(bar.0.ends_with(&format!("{side} carried in")), "{}", bar.0);
                let shown = step.title().rsplit(": ").next().unwrap();
                assert_eq!(figure(shown.split(' ').next().unwrap()), right.abs());
                assert!(shown.ends_with(&format!("{side} carried")), "{shown}");
            }
            all.extend(carried);
            all.extend(bars(&section, "matched"));
            on_one_scale(&all);
        }
    }
}

/// Where an arrow begins and ends: its shaft, whose end is the tip of its head.
fn ends(arrow: &Node) -> [f64; 2] {
    let (shaft, head) = (arrow.named("line")[0], arrow.named("polygon")[0]);
    let [from, to] = ["x1", "x2"].map(|name| shaft.number(name));
    let tip = head.get("points").split(',').next().unwrap();
    assert_eq!(tip.parse::<f64>().unwrap(), to);
    [from, to]
}

/// Catches an arrow too many or too few, with another amount or per cent, or against its direction.
#[test]
fn arrows_are_the_matches_between_zones() {
    let mut seen = 0;
    for sample in ["mixed", "steps", "treasury", "keyed", "zones"] {
        for section in sections(page_of(sample), "currency-") {
            let zones: Vec<f64> = section
                .classed("zone")
                .iter()
                .map(|zone| {
                    let frame = zone.named("rect")[0];
                    frame.number("x") + frame.number("width") / 2.0
                })
                .collect();
            let steps = section.cells("steps").into_iter();
            let steps = steps.filter(|cells| cells[0].starts_with("zones ") && cells[3] != "0.0");
            let arrows = section.classed("match");
            let steps: Vec<Vec<String>> = steps.collect();
            assert_eq!(arrows.len(), steps.len(), "{sample}");
            for (arrow, cells) in arrows.iter().zip(steps) {
                let [name, _, _, matched, per_cent, cost, sides] = &cells[..] else {
                    panic!("{cells:?}");
                };
                let begin = format!("{name}: {matched} matched at {per_cent} cost {cost}; ");
                assert!(arrow.title().starts_with(&begin), "{}", arrow.title());
                let label = format!("{matched} matched at {per_cent}");
                assert!(arrow.named("text").iter().any(|text| text.text == label));
                let digits: Vec<usize> = sides
                    .split([' ', ','])
                    .filter_map(|word| word.parse().ok())
                    .collect();
                let right = [digits[0], digits[1]].map(|zone| zones[zone - 1]);
                for (end, right) in ends(arrow).iter().zip(right) {
                    assert!(
                        (end - right).abs() < 0.01,
                        "{sample} {name}: {end}, not {right}"
                    );
                }
                seen += 1;
            }
        }
    }
    assert!(seen >= 5, "{seen}");
}
