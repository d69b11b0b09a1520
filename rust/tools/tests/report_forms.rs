//! JSON and CSV of reports, held to the texts of the samples, to the second calculation and to each other.

mod again;
mod common;
mod figures;
mod pocket;
mod stored;

use figures::{read, times, Value};
use pocket::end;
use stored::{all, Print, Stored};

/// The keys of the charges.
const CHARGES: [&str; 7] = [
    "interest_specific",
    "interest_general",
    "equity_specific",
    "equity_general",
    "foreign_exchange",
    "commodity",
    "total",
];

/// The stored reports.
fn reports() -> Vec<Stored> {
    let all = all().into_iter();
    let reports = all.filter(|stored| matches!(stored.print, Print::Report));
    reports.collect()
}

/// A report as JSON.
fn json_of(stored: &Stored) -> Value {
    read(&stored.printed_with(&["--json"]))
}

/// The report of the second calculation.
fn second_of(stored: &Stored) -> second::Report {
    second::charge(&stored.book.encode().unwrap(), &stored.table())
}

/// Catches a charge or a count in JSON that is not the text's or the second calculation's, under
/// document 01's table and under another.
#[test]
fn charges_as_json_are_those_of_the_text() {
    assert_eq!(reports().len(), 23);
    for stored in reports() {
        let (read, second, name) = (json_of(&stored), second_of(&stored), stored.name());
        let charges = times(read.get("charges_mils"), CHARGES, 1);
        assert_eq!(read.get("charges_mils").names(), CHARGES, "{name}");
        let text = stored.text();
        let lines: Vec<&str> = text.lines().rev().take(7).collect();
        let printed = lines.iter().rev().map(|line| end::<1>(line)[0]);
        assert_eq!(charges[..], printed.collect::<Vec<_>>(), "{name}");
        assert_eq!(charges[6], second.total.into(), "{name}");
        assert_eq!(read.get("rows").number(), second.taken.into(), "{name}");
    }
}

/// Catches a currency that is left out, one without rows, and a charge of another.
#[test]
fn currencies_as_json_are_those_of_the_second_calculation() {
    for stored in reports() {
        let (read, second) = (json_of(&stored), second_of(&stored));
        let names = ["currency", "specific_mils", "general_mils"];
        let currencies = read.get("currencies").list().iter();
        let shown = currencies.map(|currency| times(currency, names, 1));
        let rows = &stored.book.classes[0];
        let used = (0..32).filter(|group| rows.iter().any(|row| usize::from(row.group) == *group));
        let expected = used.map(|group| {
            let figures = [second.specifics[group], second.generals[group]];
            let [specific, general] = figures.map(i128::from);
            [group as i128, specific, general]
        });
        assert!(shown.eq(expected), "{}", stored.name());
    }
}

/// Catches a table that is not told, or with figures in the place of others.
#[test]
fn a_loaded_table_is_told() {
    for stored in reports() {
        let read = json_of(&stored);
        if !stored.name().contains(".table") {
            assert_eq!(read.get("table").text(), "document 01");
            continue;
        }
        let second = second::read_table(&stored.table()).unwrap();
        let weights = read.get("table").get("weights_basis_points").list();
        assert!(weights.iter().map(Value::number).eq(second.weights));
        let [zone_1, zone_2, zone_3] = second.zones;
        let names = [
            "vertical_per_cent",
            "zone_1_per_cent",
            "zone_2_per_cent",
            "zone_3_per_cent",
            "adjacent_per_cent",
            "zones_1_3_per_cent",
        ];
        let (vertical, adjacent, apart) = (second.vertical, second.adjacent, second.zones_1_3);
        let per_cents = [vertical, zone_1, zone_2, zone_3, adjacent, apart];
        assert_eq!(times(read.get("table"), names, 1), per_cents);
    }
}

/// Catches a line of CSV text that is not the JSON's, is missing, or has another currency.
#[test]
fn reports_as_csv_have_the_figures_of_the_json() {
    for stored in reports() {
        let (read, text) = (json_of(&stored), stored.printed_with(&["--csv"]));
        let mut expected = vec!["charge,currency,mils".to_string()];
        let charges = times(read.get("charges_mils"), CHARGES, 1).into_iter();
        expected.extend(
            CHARGES
                .iter()
                .zip(charges)
                .map(|(name, mils)| format!("{name},,{mils}")),
        );
        for currency in read.get("currencies").list() {
            let names = ["currency", "specific_mils", "general_mils"];
            let [group, specific, general] = times(currency, names, 1);
            expected.push(format!("interest_specific,{group},{specific}"));
            expected.push(format!("interest_general,{group},{general}"));
        }
        let lines: Vec<&str> = text.lines().collect();
        assert_eq!(lines, expected, "{}", stored.name());
    }
}
