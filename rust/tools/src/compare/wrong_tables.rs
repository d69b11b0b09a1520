//! Wrong readings of loaded tables: a run must find each, and show a small case for it.

use super::case::Case;
use super::misread_tables::{Misread, Wrong};
use super::run::Run;
use super::{check, laws};
use crate::calls::Second;
use books::tables::random::WAYS;

/// A case of a seed whose least trade is refused: of a wrong ladder a right one breaks a claim.
fn without_trade(seed: u64, number: u64) -> Case {
    let mut case = Case::new(seed, number);
    case.trade.side = 2;
    case
}

/// A wrong reading against the second calculation.
fn run(library: &Misread) -> Run<'_> {
    Run {
        library,
        other: &Second,
        cases: without_trade,
        seed: 1,
        first: 0,
        count: 3_000,
    }
}

/// How a run fails with a wrong reading, which it must.
fn told(wrong: Wrong) -> String {
    let library = Misread {
        name: "a wrong reading",
        wrong,
    };
    let Err(failure) = run(&library).outcome() else {
        panic!("{wrong:?} is not found");
    };
    assert_eq!(failure.status, 1);
    assert!(
        failure.message.contains(" differs\n"),
        "{wrong:?}: {}",
        failure.message
    );
    failure.message
}

/// How a wrong charge and a wrong ladder are told.
const CHARGE: &str = "\ncharge by a wrong reading and by the second calculation: entry ";
const LADDER: &str = "\ninterest ladder by a wrong reading and by the second calculation: entry ";

/// Catches figures that are not compared under the loaded table: one row is enough, and a table
/// that has one field of its own.
#[test]
fn wrong_weights_are_shown_by_one_row() {
    for (wrong, words) in [
        (Wrong::OldWeights, CHARGE),
        (Wrong::OldWeightsInLadder, LADDER),
        (Wrong::ResidualAsFar, CHARGE),
    ] {
        let message = told(wrong);
        assert!(message.contains(words), "{message}");
        assert!(message.contains("\ntable, 36 bytes: "), "{message}");
        assert!(message.contains("\nbook A, 24 bytes: "), "{message}");
        assert!(message.contains("\nbook B, 0 bytes: "), "{message}");
    }
}

/// Catches per cents that are not compared: matches need two rows or three.
#[test]
fn wrong_per_cents_are_shown_by_few_rows() {
    let exchanged = [[0, 1], [0, 2], [1, 2]].map(Wrong::ZonesExchanged);
    let others = [
        Wrong::OldPerCents,
        Wrong::OldPerCentsInLadder,
        Wrong::FarForSecondPair,
    ];
    for wrong in exchanged.into_iter().chain(others) {
        let message = told(wrong);
        let words = match wrong {
            Wrong::OldPerCentsInLadder => LADDER,
            _ => CHARGE,
        };
        assert!(message.contains(words), "{wrong:?}: {message}");
        assert!(
            message.contains("\nbook A, 40 bytes: "),
            "{wrong:?}: {message}"
        );
        assert!(
            message.contains("\nbook B, 0 bytes: "),
            "{wrong:?}: {message}"
        );
    }
}

/// Catches refusals that are not compared: an empty file is enough, which an accepted table
/// leaves to be refused with 1.
#[test]
fn wrong_refusals_are_shown_by_an_empty_file() {
    let mut wrongs = vec![
        (Wrong::AfterBook(18), "0 is 1 and 18"),
        (Wrong::AfterBook(19), "0 is 1 and 19"),
        (Wrong::FirstBytes, "0 is 1 and 18"),
        (Wrong::LastByteSupposed, "0 is 1 and 18"),
        (Wrong::HighByteFirst, "0 is 19 and 1\n"),
        (Wrong::LowByteAlone, "0 is 19 and 1\n"),
        (Wrong::NineteenForEighteen, "0 is 19 and 18"),
        (Wrong::EighteenForNineteen, "0 is 18 and 19"),
        (Wrong::FigureKept, "4 is 1 and 0"),
        (Wrong::RowNamed, "1 is 1 and 0"),
    ];
    wrongs.extend((0..WAYS).map(|way| (Wrong::Untested(way), "0 is 1 and 19")));
    wrongs.extend((0..WAYS).map(|way| (Wrong::Strict(way), "0 is 19 and 1\n")));
    for (wrong, words) in wrongs {
        let message = told(wrong);
        assert!(
            message.contains(&format!("{CHARGE}{words}")),
            "{wrong:?}: {message}"
        );
        assert!(
            message.contains("\nbook A, 0 bytes: "),
            "{wrong:?}: {message}"
        );
        assert!(
            message.contains("\nbook B, 0 bytes: "),
            "{wrong:?}: {message}"
        );
    }
    for number in [18, 19] {
        let message = told(Wrong::BeforeGroup(number));
        let words = format!("{LADDER}0 is {number} and 10\n");
        assert!(message.contains(&words), "{message}");
    }
}

/// Catches a table that is not cut: what is left of it is document 01's but for one field.
#[test]
fn tables_are_shown_near_document_01_s() {
    let message = told(Wrong::Untested(9));
    assert!(
        message.contains("\nadjacent 40\nzones-1-3 101\nbook A"),
        "{message}"
    );
    assert!(message.contains("\nweights 0 20 40 70 125 "), "{message}");
    let message = told(Wrong::FirstBytes);
    assert!(message.contains("\ntable, 37 bytes: 00001400"), "{message}");
    let message = told(Wrong::LastByteSupposed);
    assert!(message.contains("\ntable, 35 bytes: 00001400"), "{message}");
    let message = told(Wrong::Untested(1));
    assert!(
        message.contains(" 600 800 2001\nvertical 10\n"),
        "{message}"
    );
}

/// Catches laws that are looked at under document 01's table, or under none: two calculations
/// have the same wrong reading, and no figure differs.
#[test]
fn the_laws_alone_find_what_two_calculations_have_in_common() {
    for (wrong, words) in [
        (Wrong::OldWeights, " does not add up: gross "),
        (Wrong::OldWeightsInLadder, " does not add up: gross "),
        (Wrong::DearerWhenLong, "joined, "),
    ] {
        let [one, other] = ["one", "another"].map(|name| Misread { name, wrong });
        let mut cases = (0..3_000).map(|number| Case::new(1, number));
        let found = cases.find_map(|case| Some((laws::broken(&one, &case)?, case)));
        let (told, case) = found.unwrap_or_else(|| panic!("{wrong:?} is not found"));
        assert_eq!(check::difference(&one, &other, &case), None, "{wrong:?}");
        assert!(told.contains(words), "{wrong:?}: {told}");
    }
}
