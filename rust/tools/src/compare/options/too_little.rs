//! Runs that have seen options of one sort alone: each must fail, and tell what it lacks.

use super::super::case::Case;
use super::super::stand_ins;
use super::wrong::alone;
use super::{OptionTables, LEAST};
use books::options::{decode, encode, OptionRow};

/// What a run of 4,000 cases has not seen of options at all.
fn lacking(cases: fn(u64, u64) -> Case) -> Vec<String> {
    let (mut lacking, names) = (stand_ins::lacking(cases), LEAST.named());
    lacking.retain(|line| {
        let about = |(name, _): &(String, u64)| line.starts_with(&format!("{name}: 0 where"));
        names.iter().any(about)
    });
    lacking
}

/// A case of a seed with each option of both tables changed.
fn changed(seed: u64, number: u64, change: fn(&mut OptionRow)) -> Case {
    let case = alone(seed, number);
    let table = |bytes: &[u8]| {
        let mut options = decode(bytes)?;
        options.iter_mut().for_each(change);
        encode(&options)
    };
    let OptionTables { a, b, room } = case.options;
    let options = OptionTables {
        a: table(&a).unwrap_or(a),
        b: table(&b).unwrap_or(b),
        room,
    };
    Case { options, ..case }
}

/// How many lines begin so.
fn count(lines: &[String], begins: &str) -> usize {
    lines.iter().filter(|line| line.starts_with(begins)).count()
}

/// Catches a run in which every first table is accepted: no refusal was compared but 12.
#[test]
fn a_run_without_bad_options_fails() {
    let lacking = lacking(|seed, number| {
        let mut case = alone(seed, number);
        case.options.a = alone(seed, number + 1).options.b;
        case
    });
    let [lengths, ends] = ["16", "17"].map(|number| format!("option tables refused {number} for "));
    assert_eq!(
        count(&lacking, &lengths) + count(&lacking, &ends) + count(&lacking, "bad options, "),
        lacking.len()
    );
    // The rarest are not asked for in so few cases.
    assert_eq!(count(&lacking, &lengths), 6, "{lacking:?}");
    assert_eq!(count(&lacking, &ends), 6, "{lacking:?}");
    assert_eq!(count(&lacking, "bad options, "), 6, "{lacking:?}");
}

/// Catches a run in which nothing is sold: no gamma was charged, and nothing met.
#[test]
fn a_run_of_bought_options_fails() {
    let lacking = lacking(|seed, number| changed(seed, number, |option| option.right &= 1));
    assert_eq!(count(&lacking, "gammas "), 11, "{lacking:?}");
    assert_eq!(count(&lacking, "vegas "), 5, "{lacking:?}");
    assert_eq!(count(&lacking, "options with sold "), 2, "{lacking:?}");
}

/// Catches a run in which every option has a row.
#[test]
fn a_run_without_delta_0_fails() {
    let lacking =
        lacking(|seed, number| changed(seed, number, |option| option.delta = option.delta.max(1)));
    let expected = [
        "outputs of options long enough though not for each option: 0 where at least 210 are wanted",
        "options with delta 0: 0 where at least 258 are wanted",
        "gammas charged of delta 0: 0 where at least 132 are wanted",
        "vegas charged of delta 0: 0 where at least 230 are wanted",
    ];
    assert_eq!(lacking, expected);
}

/// Catches a run whose options are all on one underlying.
#[test]
fn a_run_of_one_underlying_fails() {
    let lacking = lacking(|seed, number| {
        changed(seed, number, |option| {
            (option.class, option.kind, option.days) = (3, 0, 0);
            option.group = 7;
        })
    });
    for greeks in ["gammas", "vegas"] {
        assert_eq!(
            count(&lacking, &format!("{greeks} of two ")),
            2,
            "{lacking:?}"
        );
    }
    assert_eq!(count(&lacking, "options with rows in another order"), 1);
}
