//! The smaller option tables next to a table, made one by one.

use super::super::cuts::{plainer_bytes, runs};
use books::options::{decode, encode, OptionRow};

/// The plainest option that is accepted. It gives no row.
const PLAIN: OptionRow = OptionRow {
    class: 2,
    group: 0,
    right: 0,
    kind: 1,
    amount: 1,
    delta: 0,
    gamma: 0,
    vega: 0,
    volatility: 0,
    days: 0,
};

/// The smaller tables that a table may be cut to: none, one without options, fewer options, plainer
/// options, and for a table whose length is wrong fewer or plainer bytes.
pub fn cuts(bytes: &[u8]) -> Box<dyn Iterator<Item = Vec<u8>> + '_> {
    let least = [vec![], vec![0; 2]].into_iter();
    let least = least.filter(|cut| cut.len() < bytes.len());
    match decode(bytes) {
        Some(options) => {
            let cuts = fewer(options.clone()).chain(plainer(options));
            Box::new(least.chain(cuts.filter_map(|options| encode(&options))))
        }
        None => Box::new(least.chain(plainer_bytes(bytes))),
    }
}

/// Fewer options: without the last ones, or without a run of them that is not too short beside all.
fn fewer(options: Vec<OptionRow>) -> impl Iterator<Item = Vec<OptionRow>> {
    let count = options.len();
    let last = less(count as u32).filter(move |less| (*less as usize) < count);
    let last = last.map(move |less| (less as usize, count));
    let runs = runs(count).filter(move |(start, end)| 64 * (end - start) >= count);
    let cuts = last.chain(runs);
    cuts.map(move |(start, end)| [&options[..start], &options[end..]].concat())
}

/// Ways in which all options are made plainer at once.
const WAYS: [fn(OptionRow) -> OptionRow; 10] = [
    |_| PLAIN,
    |_| OptionRow { delta: 1, ..PLAIN },
    |option| in_class(option, 2),
    |option| OptionRow { group: 0, ..option },
    |option| OptionRow {
        amount: 1,
        ..option
    },
    |option| OptionRow { delta: 0, ..option },
    |option| OptionRow { gamma: 0, ..option },
    |option| OptionRow { vega: 0, ..option },
    |option| OptionRow {
        volatility: 0,
        ..option
    },
    |option| OptionRow { days: 0, ..option },
];

/// Plainer options: all of them at once, or one.
fn plainer(options: Vec<OptionRow>) -> impl Iterator<Item = Vec<OptionRow>> {
    let weights = |options: &[OptionRow]| -> u64 { options.iter().map(weight).sum() };
    let (whole, of_all) = (weights(&options), options.clone());
    let all = WAYS
        .iter()
        .map(move |way| of_all.iter().map(|option| way(*option)).collect());
    let all = all.filter(move |plain: &Vec<OptionRow>| weights(plain) < whole);
    let ones = options.clone().into_iter().enumerate();
    let ones = ones.flat_map(|(at, option)| plainer_one(option).map(move |plain| (at, plain)));
    let ones = ones.map(move |(at, plain)| {
        let mut options = options.clone();
        options[at] = plain;
        options
    });
    all.chain(ones)
}

/// The option in another class, with a kind and days that it allows.
fn in_class(option: OptionRow, class: u8) -> OptionRow {
    OptionRow {
        class,
        kind: plain_kind(class),
        days: 0,
        ..option
    }
}

/// Zero, one, and what is less by a power of two, so that the least that matters is soon found.
fn less(number: u32) -> impl Iterator<Item = u32> {
    let powers = (0..32).rev();
    let powers = powers.filter_map(move |power| number.checked_sub(1 << power));
    [0, 1].into_iter().chain(powers)
}

/// Gives a field of an option another number.
type Set = fn(&mut OptionRow, u32);

/// An option with one field made plain, or smaller.
fn plainer_one(option: OptionRow) -> impl Iterator<Item = OptionRow> {
    let with = move |set: Set, number: u32| {
        let mut plain = option;
        set(&mut plain, number);
        plain
    };
    let plain = [
        in_class(option, 2),
        in_class(option, 3),
        with(|option, _| option.group = 0, 0),
        with(|option, _| option.right = 0, 0),
        with(|option, _| option.right = 1, 0),
        with(|option, _| option.right = 2, 0),
        with(|option, _| option.kind = plain_kind(option.class), 0),
    ];
    let numbers: [(u32, Set); 6] = [
        (option.amount, |option, less| option.amount = less),
        (option.delta.into(), |option, less| {
            option.delta = less as u16
        }),
        (option.gamma.into(), |option, less| {
            option.gamma = less as u16
        }),
        (option.vega.into(), |option, less| option.vega = less as u16),
        (option.volatility.into(), |option, less| {
            option.volatility = less as u16
        }),
        (option.days.into(), |option, less| option.days = less as u16),
    ];
    let smaller = numbers.into_iter();
    let smaller =
        smaller.flat_map(move |(number, set)| less(number).map(move |less| with(set, less)));
    let plainer = plain.into_iter().chain(smaller);
    plainer.filter(move |plain| weight(plain) < weight(&option))
}

/// The plainest kind of a class.
fn plain_kind(class: u8) -> u8 {
    u8::from(class == 2)
}

/// A measure that every cut of an option lowers: its fields together, where a kind that is not the
/// plainest weighs one more, and an amount of 0, which is not accepted, much.
fn weight(option: &OptionRow) -> u64 {
    let kind = match option.kind == plain_kind(option.class) {
        true => 0,
        false => 1 + u64::from(option.kind),
    };
    let amount = match option.amount {
        0 => 1 << 32,
        amount => u64::from(amount),
    };
    let bytes = [option.class, option.group, option.right].map(u64::from);
    let pairs = [option.delta, option.gamma, option.vega, option.volatility];
    let pairs = pairs.map(u64::from).iter().sum::<u64>() + u64::from(option.days);
    bytes.iter().sum::<u64>() + kind + amount + pairs
}

#[cfg(test)]
mod tests {
    use super::*;

    /// Catches a cut that is none, and a field that is never cut.
    #[test]
    fn every_cut_weighs_less() {
        let option = OptionRow {
            class: 4,
            group: 9,
            right: 3,
            kind: 2,
            amount: 900,
            delta: 40,
            gamma: 50,
            vega: 60,
            volatility: 70,
            days: 80,
        };
        let plain: Vec<OptionRow> = plainer_one(option).collect();
        assert!(plain.iter().all(|plain| weight(plain) < weight(&option)));
        let some = |cut: fn(&OptionRow) -> bool| assert!(plain.iter().any(cut));
        some(|plain| plain.class == 3 && plain.kind == 0 && plain.days == 0);
        some(|plain| plain.group == 0 && plain.amount == 900);
        some(|plain| plain.right == 2);
        some(|plain| plain.kind == 0 && plain.days == 80);
        some(|plain| plain.amount == 900 - 512);
        some(|plain| plain.delta == 39);
        some(|plain| plain.gamma == 0);
        some(|plain| plain.vega == 1);
        some(|plain| plain.volatility == 70 - 64);
        some(|plain| plain.days == 79);
        assert_eq!(plainer_one(PLAIN).count(), 0);
    }

    /// Catches a least number that takes more cuts than it has bits.
    #[test]
    fn the_least_that_matters_is_soon_found() {
        let (mut number, mut cuts) = (65_535, 0);
        while let Some(next) = less(number).find(|less| (20_952..number).contains(less)) {
            (number, cuts) = (next, cuts + 1);
        }
        assert!(number == 20_952 && cuts <= 16, "{number} in {cuts}");
    }

    /// Catches a number of options that cannot be reached, and very many cuts of a full table.
    #[test]
    fn a_full_table_has_few_cuts_to_fewer_options() {
        let lengths: Vec<usize> = fewer(vec![PLAIN; 1_000]).map(|few| few.len()).collect();
        assert!(lengths.len() < 200 && lengths.iter().all(|length| *length < 1_000));
        assert!([0, 1, 488, 999].iter().all(|few| lengths.contains(few)));
        assert_eq!(
            fewer(vec![PLAIN; 3]).filter(|few| few.len() == 2).count(),
            4
        );
    }

    /// Catches tables without options, or of a wrong length, that have no cuts or too many.
    #[test]
    fn tables_without_options_are_cut_too() {
        assert_eq!(cuts(&[]).count(), 0);
        assert_eq!(cuts(&[0; 2]).collect::<Vec<_>>(), [vec![]]);
        assert!(cuts(&[7, 0, 1]).any(|cut| cut == [7, 0]));
    }
}
