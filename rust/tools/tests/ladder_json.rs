//! JSON of ladders, held to the texts of the samples and to the second calculation.

mod again;
mod common;
mod figures;
mod pocket;
mod stored;

use figures::{read, times, Value};
use pocket::{end, last, numbers};
use stored::{all, Print};

/// The last parts of a text: the lines of each but its title.
fn tables<const N: usize>(text: &str) -> [Vec<&str>; N] {
    let parts: Vec<&str> = text.split("\n\n").collect();
    let first = parts.len() - N;
    std::array::from_fn(|at| parts[first + at].lines().skip(1).collect())
}

/// The one ladder of JSON, of a currency or a commodity of this number.
fn one_ladder(read: &Value, of: &str, group: usize) -> Value {
    let [ladder] = read.get("ladders").list() else {
        panic!("not one ladder");
    };
    assert_eq!(ladder.get(of).number(), group as i128);
    ladder.clone()
}

/// The line of a table that begins with the name of a step, if there is one.
fn line_of<'a>(lines: &[&'a str], step: &Value) -> Option<&'a str> {
    let name = step.get("step").text();
    lines.iter().find(|line| line.starts_with(name)).copied()
}

/// Holds a band's figures to its two lines.
fn band_is_printed(band: &Value, amounts: &str, weighted: &str) {
    let names = ["band", "long_thousands", "short_thousands"];
    let [number, long, short] = times(band, names, 1_000);
    assert_eq!(end(amounts), [long, short]);
    let names = [
        "long_weighted",
        "short_weighted",
        "matched_weighted",
        "net_weighted",
    ];
    let positions = times(band, names, 100);
    assert_eq!(numbers(weighted), [&[number], &positions[..]].concat());
    let words: Vec<&str> = amounts.split_whitespace().collect();
    assert_eq!(words[0], band.get("zone").number().to_string());
    let weight = numbers(words[words.len() - 3].trim_end_matches('%'));
    assert_eq!(weight, times(band, ["weight_basis_points"], 10));
}

/// Holds what a step costs to its line.
fn charge_is_printed(step: &Value, steps: &[&str]) {
    let position = match step.get("step").text() {
        "residual" => "residual_weighted",
        _ => "matched_weighted",
    };
    let charged = [times(step, [position], 100), times(step, ["mils"], 1)].concat();
    assert_eq!(end::<2>(line_of(steps, step).unwrap())[..], charged);
}

/// Holds the sides of a zone to its line.
fn zone_is_printed(step: &Value, zones: &[&str]) {
    let [long, short] = times(step, ["long_weighted", "short_weighted"], 100);
    let line = line_of(zones, step).unwrap();
    assert_eq!(end(line), [long, short, long - short]);
}

/// Holds both zones of a match, with their sides, to its line.
fn match_is_printed(step: &Value, matches: &[&str]) {
    let line = line_of(matches, step).unwrap();
    let words: Vec<&str> = line.split_whitespace().collect();
    let nets = [&words[4..7], &words[7..10]].map(|zone| {
        let name = format!("zone_{}_net_weighted", zone[0]);
        let net = 100 * step.get(&name).number();
        let side = ["short", "zero", "long"][(1 + net.signum()) as usize];
        assert_eq!(zone[1], side, "{line}");
        assert_eq!(numbers(zone[2]), [net.abs()], "{line}");
        net
    });
    let side = |sign: i128| nets.iter().map(|net| 0.max(sign * net)).sum();
    let sides = times(step, ["long_weighted", "short_weighted"], 100);
    assert_eq!(sides, [side(1), side(-1)], "{line}");
}

/// Catches a figure of a currency's ladder in JSON that is not the text's or the second calculation's.
#[test]
fn ladders_of_currencies_as_json_have_the_figures_of_the_text() {
    let mut seen = 0;
    for stored in all() {
        let Print::Currency(group) = stored.print else {
            continue;
        };
        seen += 1;
        let read = read(&stored.printed_with(&["--json"]));
        let ladder = one_ladder(&read, "currency", group);
        let text = stored.text();
        let [amounts, weighted, zones, matches, steps, _] = tables(&text);
        let bands = ladder.get("bands").list();
        assert_eq!([bands.len(), amounts.len(), weighted.len()], [15; 3]);
        for ((band, amounts), weighted) in bands.iter().zip(amounts).zip(weighted) {
            band_is_printed(band, amounts, weighted);
        }
        let all = ladder.get("steps").list();
        assert_eq!(all.len(), 8);
        all.iter().for_each(|step| charge_is_printed(step, &steps));
        let between = &all[4..7];
        all[1..4]
            .iter()
            .for_each(|step| zone_is_printed(step, &zones));
        between
            .iter()
            .for_each(|step| match_is_printed(step, &matches));
        assert_eq!(ladder.get("charge_mils").number(), last(&steps, "charge"));
        let bytes = stored.book.encode().unwrap();
        let second = second::interest_ladder(&bytes, &stored.table(), group);
        let names = ["gross_weighted", "residual_weighted", "charge_mils"];
        let sums = [second.gross, second.residual, second.charge];
        assert_eq!(times(&ladder, names, 1), sums.map(i128::from));
    }
    assert_eq!(seen, 27);
}

/// The same of commodities.
#[test]
fn ladders_of_commodities_as_json_have_the_figures_of_the_text() {
    let mut seen = 0;
    for stored in all() {
        let Print::Commodity(group) = stored.print else {
            continue;
        };
        seen += 1;
        let read = read(&stored.printed_with(&["--json"]));
        let ladder = one_ladder(&read, "commodity", group);
        let text = stored.text();
        let [amounts, bands, charges, _] = tables(&text);
        assert_eq!(ladder.get("bands").list().len(), 7);
        for ((band, amounts), carried) in
            ladder.get("bands").list().iter().zip(&amounts).zip(&bands)
        {
            let sides = times(band, ["long_thousands", "short_thousands"], 1_000);
            assert_eq!(end(amounts), sides);
            let names = [
                "band",
                "carried_thousands",
                "matched_thousands",
                "net_thousands",
            ];
            assert_eq!(numbers(carried), times(band, names, 1_000));
        }
        let names = [
            "matched_thousands",
            "carried_thousands",
            "residual_thousands",
        ];
        for ((step, name), line) in ladder.get("steps").list().iter().zip(names).zip(&charges) {
            assert!(line.starts_with(step.get("step").text()), "{line}");
            let (sum, mils) = (step.get(name).number(), step.get("mils").number());
            assert_eq!([numbers(line)[0], end::<1>(line)[0]], [1_000 * sum, mils]);
            assert_eq!(mils, 100 * sum * step.get("basis_points").number());
        }
        let second = second::commodity_ladder(&stored.book.encode().unwrap(), group);
        let sums = [second.matches, second.carried, second.residual].map(i128::from);
        assert_eq!(times(&ladder, names, 1), sums);
        assert_eq!(ladder.get("charge_mils").number(), second.charge.into());
    }
    assert_eq!(seen, 8);
}
