//! Wrong readings of the least trade: the comparison must find each, and show few rows for it.

use super::super::asked::Asked;
use super::super::case::Case;
use super::super::check;
use super::super::options::OptionTables;
use super::super::shrink::shrink;
use super::broken;
use super::misread::Misread;
use super::readings::Wrong;
use crate::calls::Second;

/// How a difference is told.
const DIFFERS: &str = "least trade by a wrong reading";

/// A case of a seed with its first book, its table and its trade alone.
pub fn alone(seed: u64, number: u64) -> Case {
    Case {
        b: vec![],
        group: 0,
        room: 0,
        net_room: 0,
        offset_room: 0,
        both_room: 0,
        shortest_room: 0,
        dearest: Asked {
            rows: 0,
            most: 1,
            room: 8,
        },
        options: OptionTables::default(),
        order: 0,
        ..Case::new(seed, number)
    }
}

/// Holds what is told of a wrong reading, which differs in some case, to its words, and to the most rows of
/// the first book that are wanted to show it. No claim is asked.
fn shown(wrong: Wrong, words: &str, most: usize) {
    let name = "a wrong reading";
    let reading = Misread { name, wrong };
    let difference = |case: &Case| check::difference(&reading, &Second, case);
    let mut cases = (0..3_000).map(|number| alone(1, number));
    let case = cases.find(|case| difference(case).is_some());
    let case = case.unwrap_or_else(|| panic!("{wrong:?} is not found"));
    let smallest = shrink(&case, &mut |case| difference(case).is_some());
    let (what, message) = (difference(&smallest).unwrap(), smallest.to_string());
    let told = what.starts_with(DIFFERS) && what.contains(words);
    assert!(told, "{wrong:?}: {what}\n{message}");
    let bytes = smallest.a.len();
    assert!(bytes <= 8 + 16 * most, "{wrong:?}: {what}\n{message}");
}

/// Catches wrong readings that are found because the reading of the others is wrong as well.
#[test]
fn the_right_reading_differs_nowhere() {
    let right = Misread {
        name: "the right reading",
        wrong: Wrong::Nothing,
    };
    for number in 0..600 {
        let case = alone(1, number);
        assert_eq!(check::difference(&right, &Second, &case), None);
        assert_eq!(broken(&right, &case), None);
    }
}

#[test]
fn wrong_amounts_are_found() {
    for (wrong, words, rows) in [
        (Wrong::LessThan, "", 1),
        (Wrong::ZeroAsNone, "none is told", 0),
        (Wrong::NoneAsZero, "entry 3 is 1 and 0", 1),
        (Wrong::MillionLeftOut, "none is told", 1),
        (Wrong::OneTooMany, "entry 4 is 1 and 0", 0),
        (Wrong::OneTooFew, " is told, which costs ", 1),
    ] {
        shown(wrong, words, rows);
    }
}

#[test]
fn wrong_places_and_weights_are_found() {
    for wrong in [
        Wrong::OtherSide,
        Wrong::NextBand,
        Wrong::NextWeight,
        Wrong::NextCurrency,
        Wrong::AddedAsWeighted,
        Wrong::StandardTable,
    ] {
        shown(wrong, "", 2);
    }
}

#[test]
fn wrong_refusals_are_found() {
    for (wrong, words) in [
        (Wrong::AfterBook, "entry 0 is 1 and 21"),
        (Wrong::TableLater, "entry 0 is 21 and 1"),
        (Wrong::BandTaken, "entry 0 is "),
        (Wrong::SideTaken, "entry 0 is "),
        (Wrong::AmountKept, "entry 4 is "),
    ] {
        shown(wrong, words, 0);
    }
}

/// Catches a claim that is not held to: a second calculation with the same reading differs nowhere.
#[test]
fn the_claims_find_readings_in_common() {
    for (wrong, words) in [
        (Wrong::LessThan, "for the charge that there is, "),
        (Wrong::ZeroAsNone, "for the charge that there is, none "),
        (Wrong::NoneAsZero, "0 is told for "),
        (Wrong::OneTooMany, "for the charge that there is, 1 "),
        (Wrong::OneTooFew, "a row of "),
        (Wrong::OtherSide, "a row of "),
        (Wrong::NextBand, "a row of "),
        (Wrong::NextWeight, "a row of "),
        (Wrong::NextCurrency, "for the charge that there is, "),
        (Wrong::AddedAsWeighted, ""),
        (Wrong::StandardTable, "for the charge that there is, "),
    ] {
        let reading = Misread { name: "one", wrong };
        let mut told = (0..3_000).filter_map(|number| broken(&reading, &alone(1, number)));
        let begins = format!("least trade: {words}");
        let found = told.any(|told| told.starts_with(&begins));
        assert!(found, "{wrong:?}");
    }
}
