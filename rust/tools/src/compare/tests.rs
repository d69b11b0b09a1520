//! The comparison finds faults, and finds small books for them.

use super::asked::Asked;
use super::case::Case;
use super::faulty::{Fault, Faulty};
use super::options::OptionTables;
use super::run::Run;
use super::trade::Trade;
use super::{check, laws};
use crate::calls::Second;
use books::{Book, Row};

/// How a difference of a faulty charge is told.
const CHARGE: &str = "charge by a faulty calculation and by the second calculation";

/// A faulty calculation against the second one.
fn run(library: &Faulty) -> Run<'_> {
    Run {
        library,
        other: &Second,
        cases: Case::new,
        seed: 1,
        first: 0,
        count: 300,
    }
}

/// The first case of a seed on which a calculation differs from the second one.
fn found(fault: Fault) -> Option<(u64, Case)> {
    let differs = |case: &Case| run(&Faulty(fault)).difference(case).is_some();
    (0..3_000)
        .map(|number| (number, Case::new(1, number)))
        .find(|(_, case)| differs(case))
}

#[test]
fn no_fault_is_found_where_there_is_none() {
    assert!(run(&Faulty(Fault::None)).outcome().is_ok());
}

#[test]
fn every_fault_is_found() {
    let faults = [
        Fault::Carried,
        Fault::Unwritten,
        Fault::NoneTaken,
        Fault::OneMoreTaken,
        Fault::TakenKept,
        Fault::TakenTwice,
        Fault::PastTheEnd,
        Fault::RefusedWrites,
        Fault::Order,
        Fault::Side,
        Fault::Dear,
        Fault::SpecificsShifted,
        Fault::GeneralsShifted,
        Fault::ListsExchanged,
        Fault::LastLeftOut,
        Fault::EquityInList,
        Fault::SpecificKept,
        Fault::GeneralKept,
        Fault::DearSpecific,
        Fault::DearGeneral,
        Fault::OrderInList,
        Fault::SideInList,
        Fault::SpecificAtFixing,
        Fault::LadderAtFinal,
        Fault::FinalBeforeFixing,
        Fault::FinalAtFixingRefused,
        Fault::CouponLimit,
        Fault::DaysLimit,
        Fault::AmountsBeforeFixing,
        Fault::FixingBeforeGroup,
        Fault::NoteInEquity,
        Fault::SixForFifteen,
        Fault::SevenForFifteen,
        Fault::FifteenWithoutRow,
        Fault::PartOfNoClass,
        Fault::PartOfFifth,
        Fault::PartWithoutContents,
        Fault::PartBefore,
        Fault::PartInRows,
        Fault::PartToTheEnd,
        Fault::EmptyPartNowhere,
        Fault::PartOfRefused,
        Fault::PartUnwritten,
    ];
    assert!(faults.iter().all(|fault| found(*fault).is_some()));
}

/// Catches notes that come up so seldom that a run of 600 cases misses a wrong reading of them.
#[test]
fn wrong_readings_of_floating_rate_notes_are_shown_by_one_note() {
    let check = "check by a faulty calculation and by the second calculation: entry 0 is";
    for (fault, words) in [
        (Fault::SpecificAtFixing, format!("{CHARGE}: entry 3 is ")),
        (Fault::LadderAtFinal, format!("{CHARGE}: entry 4 is ")),
        // A row without amounts is plainer: what passes for 15 is then refused with 8.
        (Fault::FinalBeforeFixing, format!("{check} 8 and 15\n")),
        (
            Fault::FinalAtFixingRefused,
            "the joined book is refused with 15\n".into(),
        ),
        (
            Fault::CouponLimit,
            "the joined book is refused with 15\n".into(),
        ),
        (Fault::DaysLimit, format!("{check} 8 and 15\n")),
        (Fault::AmountsBeforeFixing, format!("{check} 8 and 15\n")),
        (Fault::FixingBeforeGroup, format!("{check} 15 and 4\n")),
        (Fault::SixForFifteen, format!("{check} 6 and 15\n")),
        (Fault::SevenForFifteen, format!("{check} 7 and 15\n")),
    ] {
        let (number, case) = found(fault).unwrap();
        assert!(number < 600, "{words}: {number}");
        let text = run(&Faulty(fault)).explain(&case, number);
        assert!(text.contains(&words), "{words}: {text}");
        assert!(text.contains(", 24 bytes: "), "{words}: {text}");
        assert!(text.contains(",floating,"), "{words}: {text}");
    }
    let (number, case) = found(Fault::NoteInEquity).unwrap();
    let text = run(&Faulty(Fault::NoteInEquity)).explain(&case, number);
    assert!(text.contains(&format!("{check} 8 and 5\n")), "{text}");
    assert!(text.contains("\nequity,0,4,0,0,0,0,0\n"), "{text}");
}

#[test]
fn the_laws_alone_find_what_the_figures_of_one_book_cannot() {
    for (fault, words) in [
        (Fault::Order, "reordered"),
        (Fault::Side, "mirrored"),
        (Fault::Dear, "joined, total is"),
        (Fault::OneMoreTaken, " rows are taken, not "),
        (Fault::ListsExchanged, "interest specific is "),
        (Fault::LastLeftOut, ", by currencies "),
        (Fault::EquityInList, "interest specific is "),
        (
            Fault::SpecificKept,
            "interest specific is 0, by currencies 5",
        ),
        (Fault::GeneralKept, "interest general is 0, by currencies 5"),
        (
            Fault::GeneralsShifted,
            "joined, interest general of currency ",
        ),
        (
            Fault::DearSpecific,
            "joined, interest specific of currency ",
        ),
        (Fault::DearGeneral, "joined, interest general of currency "),
        (Fault::OrderInList, "reordered and mirrored and as it is: "),
        (Fault::SideInList, "mirrored and as it is: "),
        (Fault::PartOfNoClass, "part 0: bytes "),
        (Fault::PartOfFifth, "part 5: bytes "),
        (Fault::PartWithoutContents, "part 1: bytes [0, "),
        (Fault::PartBefore, " after byte "),
        (Fault::PartInRows, "part 4: bytes "),
        (Fault::PartToTheEnd, " after byte "),
        (Fault::EmptyPartNowhere, " after byte "),
        (Fault::PartOfRefused, "part 1: bytes [8, 8] of nothing"),
    ] {
        let broken = |number| laws::broken(&Faulty(fault), &Case::new(1, number));
        let first = (0..3_000)
            .filter_map(broken)
            .find(|what| what.contains(words));
        assert!(first.is_some(), "{words}");
    }
}

#[test]
fn a_difference_is_shown_with_a_small_book() {
    let (number, case) = found(Fault::Carried).unwrap();
    assert!(check::difference(&Faulty(Fault::Carried), &Second, &case).is_some());
    let text = run(&Faulty(Fault::Carried)).explain(&case, number);
    assert!(text.starts_with(&format!(
        "pair {number} of seed 1 differs\ncommodity ladder by a faulty calculation and by "
    )));
    assert!(
        text.contains(
            " to net, 0 to offset, 0 for both and 0 to show the refusal\ndocument 01's table\nbook A, 24 bytes: "
        ),
        "{text}"
    );
    assert!(text.contains("\ncommodity,0,none,0,0,0,"), "{text}");
}

/// Catches a comparison that leaves the rows taken out: every other entry is right here.
#[test]
fn wrong_rows_taken_are_shown_with_as_few_rows_as_can_be() {
    let faults = [
        (Fault::NoneTaken, [0, 0, 1]),
        (Fault::OneMoreTaken, [0, 2, 1]),
        (Fault::TakenTwice, [0, 2, 1]),
        (Fault::TakenKept, [1, 1, 0]),
    ];
    for (fault, [row, wrong, right]) in faults {
        let (number, case) = found(fault).unwrap();
        let text = run(&Faulty(fault)).explain(&case, number);
        let expected = format!("{CHARGE}: entry 10 is {wrong} and {right}");
        assert_eq!(text.lines().nth(1), Some(&expected[..]), "{text}");
        let bytes = 24 + 16 * row;
        assert!(text.contains(&format!("book A, {bytes} bytes: ")), "{text}");
    }
}

/// Catches a comparison that leaves the lists out, or looks at their sums alone.
#[test]
fn wrong_lists_are_shown_with_as_few_rows_as_can_be() {
    let faults = [
        (
            Fault::SpecificsShifted,
            24,
            "entry 11 is 0 and ",
            ", entry 12 is ",
        ),
        (
            Fault::GeneralsShifted,
            24,
            "entry 43 is 0 and ",
            ", entry 44 is ",
        ),
        (Fault::ListsExchanged, 24, "entry 11 is ", ", entry 43 is "),
        (Fault::EquityInList, 24, "entry 11 is ", " and 0"),
        (Fault::SpecificKept, 0, "entry 11 is 5 and 0", ""),
        (Fault::GeneralKept, 0, "entry 74 is 5 and 0", ""),
    ];
    for (fault, bytes, first, next) in faults {
        let (number, case) = found(fault).unwrap();
        let text = run(&Faulty(fault)).explain(&case, number);
        let what = text.lines().nth(1).unwrap();
        assert!(what.starts_with(&format!("{CHARGE}: {first}")), "{text}");
        assert!(what.contains(next), "{text}");
        assert!(text.contains(&format!("book A, {bytes} bytes: ")), "{text}");
    }
}

/// Catches a comparison that leaves out a class, a number that is none, or a figure of a part.
#[test]
fn wrong_parts_are_shown_with_as_few_rows_as_can_be() {
    let faults = [
        (Fault::PartOfNoClass, 8, "entry 3 is 8 and 0, of class 0"),
        (Fault::PartOfFifth, 8, "entry 3 is 8 and 0, of class 5"),
        (
            Fault::PartWithoutContents,
            8,
            "entry 3 is 0 and 8, of class 1",
        ),
        (Fault::PartBefore, 24, "entry 3 is 8 and 24, of class "),
        (Fault::PartInRows, 24, "entry 4 is 1 and 16, of class "),
        (Fault::PartToTheEnd, 24, "entry 4 is 16 and 0, of class "),
        (Fault::EmptyPartNowhere, 8, "entry 3 is 0 and 8, of class 1"),
        (Fault::PartOfRefused, 24, "entry 3 is 8 and 0, of class 1"),
        (
            Fault::PartUnwritten,
            0,
            "entry 4 is 11936128518282651045 and 0, of class 0",
        ),
    ];
    for (fault, bytes, entry) in faults {
        let (number, case) = found(fault).unwrap();
        let text = run(&Faulty(fault)).explain(&case, number);
        let what = text.lines().nth(1).unwrap();
        let part = "part by a faulty calculation and by the second calculation: ";
        assert!(what.starts_with(&format!("{part}{entry}")), "{text}");
        assert!(text.contains(&format!("book A, {bytes} bytes: ")), "{text}");
    }
}

/// A case of two books.
fn case(a: &[Row], b: &[Row]) -> Case {
    let book = |rows: &[Row]| {
        let mut book = Book::default();
        book.classes[0] = rows.to_vec();
        book.encode().unwrap()
    };
    Case {
        a: book(a),
        b: book(b),
        table: second::table().to_vec(),
        group: 0,
        room: 1_000,
        net_room: 1_000,
        offset_room: 1_000,
        both_room: 1_000,
        shortest_room: 1_000,
        dearest: Asked {
            rows: 2,
            most: 7,
            room: 1_000,
        },
        options: OptionTables::default(),
        trade: Trade::default(),
        order: 0,
    }
}

/// Catches a premise that is taken of another currency, or of none: E4 in currency 7 uses
/// three zones when joined and costs more than in the two; beside it one uses two.
#[test]
fn a_currency_with_three_zones_may_cost_more() {
    let row = Row::default().with_kind(1).with_coupon(800);
    let bond = |group, days, long, short| {
        let row = row.with_group(group).with_days(days);
        row.with_sides(long, short)
    };
    for other in [0, 6, 8, 31] {
        let a = [
            bond(7, 270, 75, 0),
            bond(7, 900, 0, 30),
            bond(other, 270, 75, 0),
        ];
        let b = [
            bond(7, 900, 30, 0),
            bond(7, 6000, 0, 10),
            bond(other, 900, 0, 30),
        ];
        let case = case(&a, &b);
        let generals = [&case.a, &case.b].map(|book| second::charge(book, &case.table).generals[7]);
        assert_eq!(generals, [210_000; 2]);
        let mut joined = vec![0; case.a.len() + case.b.len() - 8];
        assert!(second::join(&case.a, &case.b, &mut joined)
            .refusal
            .accepted());
        assert_eq!(second::charge(&joined, &case.table).generals[7], 577_500);
        assert_eq!(laws::broken(&Second, &case), None);
    }
}
