//! The curve of a least trade on a page: its points are charges of the second calculation, its marks
//! what `least-trade` tells.

mod common;
mod page;

use books::{Book, Row};
use common::{packed, prints};
use page::{parse, Node};
use std::fs;

/// The general charge of currency 7 with a row added, by the second calculation.
fn second(book: &Book, row: Row, amount: u64) -> u64 {
    let mut book = book.clone();
    if amount > 0 {
        book.classes[0].push(row.with_sides(0, amount as u32));
    }
    let bytes = book.encode().unwrap();
    second::interest_ladder(&bytes, &second::table(), 7).entries()[12]
}

/// The amounts and charges of a curve's points.
fn points(section: &Node) -> Vec<(u64, u64)> {
    let circles = section.classed("points")[0].named("circle");
    let read = |circle: &&Node| {
        let title = circle.title().replace([',', '.'], "");
        let words: Vec<&str> = title.split([' ', ':']).collect();
        (words[1].parse().unwrap(), words[3].parse().unwrap())
    };
    circles.iter().map(read).collect()
}

/// Shorts in band 5 of currency 7, for a limit.
fn asked(limit: &str) -> [&str; 5] {
    ["--currency=7", "--band=5", "--side=short", "--limit", limit]
}

/// Catches a point that is another than a book with such a row costs, a turn that is left out, so
/// that the line cuts a corner, and a place that is not that of the figures.
#[test]
fn the_curve_is_the_second_calculation_s() {
    let book = packed("zones", "html-curve");
    let rows = Book::decode(&fs::read(&book).unwrap()).unwrap();
    let row = Row::default()
        .with_group(7)
        .with_kind(1)
        .with_days(900)
        .with_coupon(800);
    for limit in ["700", "420", "100"] {
        let asked = asked(limit);
        let words = [&["html", &book, "-o", "-"][..], &asked[..]].concat();
        let page = parse(&prints(&words));
        let section = page.section("trade").unwrap();
        let points = points(section);
        assert!(points.len() >= 4, "{points:?}");
        for pair in points.windows(2) {
            let [(from, low), (to, high)] = [pair[0], pair[1]];
            for amount in from..=to {
                let (part, whole) = (u128::from(amount - from), u128::from(to - from));
                let [low, high] = [low, high].map(u128::from);
                let straight = (low * (whole - part) + high * part) / whole;
                let right = second(&rows, row, amount);
                assert_eq!(straight, u128::from(right), "with {amount}");
            }
        }
        places(section, &points);
    }
}

/// Holds the places of the curve to its figures: both scales run straight.
fn places(section: &Node, points: &[(u64, u64)]) {
    let path = section.classed("curve")[0].get("points");
    let places: Vec<[f64; 2]> = path
        .split(' ')
        .map(|point| {
            let (x, y) = point.split_once(',').unwrap();
            [x, y].map(|number| number.parse().unwrap())
        })
        .collect();
    assert_eq!(places.len(), points.len());
    let (last, end) = (points.len() - 1, points[points.len() - 1]);
    let wide = (places[last][0] - places[0][0]) / end.0 as f64;
    let axis = section.classed("grid")[0].named("line")[0].number("y1");
    let high = (axis - places[0][1]) / points[0].1 as f64;
    for (place, (amount, charge)) in places.iter().zip(points) {
        let right = [
            places[0][0] + wide * *amount as f64,
            axis - high * *charge as f64,
        ];
        for (place, right) in place.iter().zip(right) {
            assert!(
                (place - right).abs() < 0.01,
                "{amount}: {place}, not {right}"
            );
        }
    }
}

/// Catches a limit or a least amount in another place, or one that is told otherwise than by
/// `least-trade`.
#[test]
fn the_limit_and_the_least_amount_are_marked() {
    let book = packed("keyed", "html-mark");
    for (limit, amount, charge) in [("500", "23", "493.500"), ("400", "30", "420.000")] {
        let asked = asked(limit);
        let words = [&["html", &book, "-o", "-"][..], &asked[..]].concat();
        let page = parse(&prints(&words));
        let section = page.section("trade").unwrap();
        let words = [&["least-trade", &book][..], &asked[..]].concat();
        let title = prints(&words).lines().next().unwrap().to_string();
        assert_eq!(section.classed("total")[0].text, title);
        let mark = section.classed("mark")[0];
        let told = &mark.named("text")[0].text;
        assert!(
            told.ends_with(&format!("{amount}: charge {charge}")),
            "{told}"
        );
        assert_eq!(told.starts_with("none is within"), limit == "400");
        let ring = mark.named("circle")[0];
        let at = |circle: &Node| [circle.get("cx").to_string(), circle.get("cy").to_string()];
        let points = section.classed("points")[0].named("circle");
        let point = points
            .iter()
            .find(|point| point.title() == format!("with {amount}: {charge}"));
        assert_eq!(at(ring), at(point.unwrap()));
        let line = section.classed("limit")[0];
        assert_eq!(line.title(), format!("limit {limit}.000"));
        let over = line.named("line")[0].number("y1") > ring.number("cy");
        assert_eq!(
            over,
            limit == "400",
            "the lower the charge, the lower it stands"
        );
    }
}
