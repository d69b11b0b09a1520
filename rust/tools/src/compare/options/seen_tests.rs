//! What is counted of option tables, by hand.

use super::super::case::Case;
use super::wrong::alone;
use super::{OptionTables, Seen};
use books::options::{encode, OptionRow};

/// A bought call on a commodity: 3 at a delta of a half, gamma 5, vega 7 and volatility 11.
const CALL: OptionRow = OptionRow {
    class: 4,
    group: 2,
    right: 0,
    kind: 0,
    amount: 3,
    delta: 5_000,
    gamma: 5,
    vega: 7,
    volatility: 11,
    days: 90,
};

/// The table of some options.
fn table(options: &[OptionRow]) -> Vec<u8> {
    encode(options).unwrap()
}

/// The names of what is counted of two tables and an output, where they begin so.
fn seen(a: Vec<u8>, b: Vec<u8>, room: usize, begins: &str) -> Vec<String> {
    let mut seen = Seen::default();
    let options = OptionTables { a, b, room };
    seen.count(&Case {
        options,
        ..alone(1, 1)
    });
    let names = seen.named().into_iter().filter(|(_, count)| *count > 0);
    let names = names.filter_map(|(name, _)| name.strip_prefix(begins).map(String::from));
    names.collect()
}

/// The same of some options with room.
fn of(options: &[OptionRow], begins: &str) -> Vec<String> {
    seen(table(options), vec![], 50_000, begins)
}

/// Catches a table that is counted for another size or output, and 12 that is not.
#[test]
fn tables_count_by_their_size_and_output() {
    let zero = OptionRow { delta: 0, ..CALL };
    let counted = |options: &[OptionRow], room| {
        let all = seen(table(options), vec![], room, "");
        let about = |name: &String| name.starts_with("o") && !name.starts_with("options ");
        let all: Vec<String> = all.into_iter().filter(about).collect();
        all.join("; ")
    };
    let none = "option tables of no options; outputs of options just long enough";
    assert_eq!(counted(&[], 8), none);
    let one =
        "option tables of 1 option; option tables refused 12; outputs of options one byte short";
    assert_eq!(counted(&[CALL], 23), one);
    let longer = "option tables of 2 to 9 options; outputs of options longer";
    assert_eq!(counted(&[CALL; 9], 8 + 16 * 10), longer);
    let between = "outputs of options just long enough; \
                   outputs of options long enough though not for each option";
    assert_eq!(
        counted(&[CALL, zero], 24),
        format!("option tables of 2 to 9 options; {between}")
    );
    for (count, name) in [
        (10, "10 to 998"),
        (998, "10 to 998"),
        (999, "999 or 1,000"),
        (1_000, "999 or 1,000"),
    ] {
        let sizes = of(&vec![CALL; count], "option tables of ");
        assert_eq!(sizes, [name]);
    }
}

/// Catches a reason of 16 that is told for another.
#[test]
fn wrong_lengths_count_by_their_reason() {
    let counted =
        |bytes: Vec<u8>| seen(bytes, vec![], 8, "option tables refused 16 for ").join("; ");
    let bad = OptionRow { right: 4, ..CALL };
    let (whole, spoilt) = (table(&[CALL; 2]), table(&[CALL, bad]));
    assert_eq!(counted(vec![]), "fewer than two bytes");
    assert_eq!(counted(vec![0]), "fewer than two bytes");
    assert_eq!(counted(table(&[CALL; 1_001])), "1,001 options");
    assert_eq!(counted(table(&[CALL; 1_002])), "more options");
    assert_eq!(counted(whole[..37].to_vec()), "one byte too few");
    assert_eq!(counted([&whole[..], &[0]].concat()), "one byte too many");
    assert_eq!(counted(whole[..36].to_vec()), "another length");
    let beside = "one byte too many; a length beside a bad option";
    assert_eq!(counted([&spoilt[..], &[0]].concat()), beside);
    let short = seen(vec![1], vec![], 7, "option tables refused 16 for ");
    assert_eq!(short, ["fewer than two bytes", "a length without room"]);
}

/// Catches an end that is counted though another is passed too, or by more than one; and another place.
#[test]
fn bad_options_count_by_their_field_and_place() {
    let bad = OptionRow { right: 4, ..CALL };
    let worse = OptionRow { group: 32, ..bad };
    let share = OptionRow {
        class: 2,
        kind: 1,
        days: 0,
        ..CALL
    };
    let counted =
        |options: &[OptionRow], room, begins: &str| seen(table(options), vec![], room, begins);
    let ends = |options: &[OptionRow]| counted(options, 8, "option tables refused 17 for ");
    assert_eq!(ends(&[CALL, bad]), ["right 4"]);
    assert_eq!(ends(&[worse]), [""; 0]);
    assert_eq!(ends(&[OptionRow { right: 5, ..CALL }]), [""; 0]);
    let places = |options: &[OptionRow], room| counted(options, room, "bad options, ").join("; ");
    assert_eq!(places(&[bad], 8), "the first");
    assert_eq!(places(&[bad, CALL], 8), "the first");
    assert_eq!(places(&[CALL, bad, CALL], 8), "a later one");
    assert_eq!(places(&[CALL, bad], 8), "a later one; the last of several");
    assert_eq!(
        places(&[bad, worse], 7),
        "the first; one before another; one without room"
    );
    let other = "a later one; one with another number in its class";
    assert_eq!(places(&[share, bad, CALL], 8), other);
}

/// Catches an option that is counted for another sort.
#[test]
fn options_count_by_their_fields() {
    let counted = |options: &[OptionRow]| of(options, "options with ").join("; ");
    let up = "amounts rounded up by a half or more";
    assert_eq!(counted(&[CALL]), format!("commodities; bought calls; {up}"));
    let put = OptionRow {
        class: 3,
        right: 1,
        delta: 10_000,
        days: 0,
        ..CALL
    };
    assert_eq!(
        counted(&[put]),
        "currencies; bought puts; delta 10,000; whole amounts"
    );
    let other = "rows in another order than the table's";
    let both = "currencies; commodities; bought calls; bought puts; delta 10,000; whole amounts";
    assert_eq!(counted(&[CALL, put]), format!("{both}; {up}; {other}"));
    assert_eq!(counted(&[put, CALL]), format!("{both}; {up}"));
    let zero = OptionRow {
        class: 2,
        kind: 1,
        days: 0,
        right: 3,
        delta: 0,
        ..CALL
    };
    assert_eq!(counted(&[zero]), "shares; sold puts; delta 0");
    let less = OptionRow {
        right: 2,
        delta: 5_001,
        ..CALL
    };
    assert_eq!(
        counted(&[less]),
        "commodities; sold calls; amounts rounded up by less"
    );
}

/// Catches two tables that are counted though one is refused, and less that is none.
#[test]
fn two_tables_count_by_what_they_come_to() {
    let sold = OptionRow { right: 2, ..CALL };
    let two = |a: &[OptionRow], b: &[OptionRow]| {
        seen(table(a), table(b), 0, "two option tables ").join("; ")
    };
    assert_eq!(two(&[CALL], &[CALL]), "joined; together");
    let less = "together; together with less gamma; together with less vega";
    let met = "joined; joined on two sides of an underlying";
    assert_eq!(two(&[CALL], &[sold]), format!("{met}; {less}"));
    // A sold put is long.
    let put = OptionRow { right: 3, ..CALL };
    assert_eq!(two(&[CALL], &[put]), format!("joined; {less}"));
    let other = OptionRow { group: 3, ..sold };
    assert_eq!(two(&[CALL], &[other]), "joined; together");
    assert_eq!(
        two(&[sold; 1_000], &[sold]),
        "joined; together more than 1,000 options"
    );
    assert_eq!(two(&[CALL], &[OptionRow { right: 4, ..CALL }]), "");
    assert_eq!(two(&[], &[]), "joined; together");
}
