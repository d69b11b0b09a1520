//! Calculations that agree with each other, in ladders that are wrong: no figure differs, and
//! only the adding-up can tell.

use super::case::Case;
use super::run::Run;
use super::trade::answer;
use super::{check, laws};
use crate::calls::{Calls, Second};
use books::{Book, Row};

/// What is wrong with a ladder of the second calculation. All else is right.
#[derive(Clone, Copy, Debug, PartialEq)]
enum Wrong {
    /// Half of the residual is told as matched between zones 1 and 3. Both bear 100%, and the
    /// charge stays.
    MatchMadeUp,
    /// The same with twice the match taken off the residual, so that gross adds up.
    TakenOffTwice,
    /// A match is made up and gross made larger to suit it.
    MatchAndGross,
    /// Gross is of the longs alone.
    LongsOnly,
    /// One of the seven match sums is left out, by its entry, and not charged.
    MatchDropped(usize),
    /// The residual is below zero where the shorts are more, and so wraps.
    ResidualWithSign,
    /// Nothing is left where the shorts are more.
    ShortsForgotten,
    /// The charge is a mil below 100% of the residual.
    ChargeBelow,
    /// Twice the charge is two mils above 100% of gross and residual, where there are any.
    ChargeAbove,
    /// What is left of a commodity is carried once more, and charged for it.
    CarriedOnceMore,
    /// The same, not charged.
    CarriedUncharged,
    /// The matches of a commodity are left out, with their charge.
    NoMatches,
    /// The same, charged all the same.
    NoMatchesCharged,
    /// All of a commodity is told as matched, what is left over too.
    AllMatched,
    /// A match of a commodity bears 1.5% on one side.
    OneSideCharged,
}

/// The per cent of a match sum, by its entry, in an accepted table.
fn per_cent(table: &[u8], entry: usize) -> u64 {
    let place = [30, 31, 32, 33, 34, 34, 35][entry - 4];
    u64::from(table[place])
}

/// The weighted longs and the weighted shorts of a currency, under an accepted table.
fn weighted(book: &[u8], table: &[u8], group: usize) -> [u64; 2] {
    let rows = Book::decode(book).unwrap_or_default().classes[0].clone();
    let own = rows.iter().filter(|row| usize::from(row.group) == group);
    let weights = second::read_table(table)
        .expect("an accepted table")
        .weights;
    let weight = |row: &Row| {
        let band = second::interest_band(row.days.into(), row.coupon.into());
        weights[band] as u64
    };
    own.fold([0; 2], |[long, short], row| {
        let (more_long, more_short) = (u64::from(row.long), u64::from(row.short));
        [
            long + weight(row) * more_long,
            short + weight(row) * more_short,
        ]
    })
}

impl Wrong {
    /// Makes an accepted ladder of a currency wrong.
    fn interest(self, book: &[u8], table: &[u8], group: usize, out: &mut [u64; 13]) {
        let (gross, residual) = (out[3], out[11]);
        let [long, short] = weighted(book, table, group);
        match self {
            Wrong::MatchMadeUp => {
                (out[10], out[11]) = (out[10] + residual / 2, residual.div_ceil(2))
            }
            Wrong::TakenOffTwice => (out[10], out[11]) = (out[10] + residual / 2, residual % 2),
            Wrong::MatchAndGross => (out[10], out[3]) = (out[10] + 50, gross + 100),
            Wrong::LongsOnly => out[3] = long,
            Wrong::MatchDropped(entry) => {
                out[12] -= per_cent(table, entry) * out[entry];
                out[entry] = 0;
            }
            Wrong::ResidualWithSign => out[11] = long.wrapping_sub(short),
            Wrong::ShortsForgotten if short > long => out[11] = 0,
            Wrong::ChargeBelow => out[12] = (100 * residual).saturating_sub(1),
            Wrong::ChargeAbove if gross > 0 => out[12] = 50 * (gross + residual) + 1,
            _ => (),
        }
    }

    /// Makes an accepted ladder of a commodity wrong.
    fn commodity(self, out: &mut [u64; 7]) {
        let (matches, residual) = (out[3], out[5]);
        match self {
            Wrong::CarriedOnceMore => {
                (out[4], out[6]) = (out[4] + residual, out[6] + 6_000 * residual)
            }
            Wrong::CarriedUncharged => out[4] += residual,
            Wrong::NoMatches => (out[3], out[6]) = (0, out[6] - 30_000 * matches),
            Wrong::NoMatchesCharged => out[3] = 0,
            Wrong::AllMatched => (out[3], out[5]) = (matches + residual / 2, residual % 2),
            Wrong::OneSideCharged => out[6] -= 15_000 * matches,
            _ => (),
        }
    }
}

/// One of the calculations that agree.
struct Agreeing {
    name: &'static str,
    wrong: Wrong,
}

impl Calls for Agreeing {
    fn name(&self) -> &'static str {
        self.name
    }
    fn check(&self, book: &[u8], out: &mut [u64; 3]) {
        Second.check(book, out);
    }
    fn part(&self, book: &[u8], class: usize, out: &mut [u64; 5]) {
        Second.part(book, class, out);
    }
    fn charge(&self, book: &[u8], table: &[u8], out: &mut [u64; 75]) {
        Second.charge(book, table, out);
    }
    fn interest_ladder(&self, book: &[u8], table: &[u8], group: usize, out: &mut [u64; 13]) {
        Second.interest_ladder(book, table, group, out);
        if out[0] == 0 {
            self.wrong.interest(book, table, group, out);
        }
    }
    fn commodity_ladder(&self, book: &[u8], group: usize, out: &mut [u64; 7]) {
        Second.commodity_ladder(book, group, out);
        if out[0] == 0 {
            self.wrong.commodity(out);
        }
    }
    fn small_bank(&self, book: &[u8], out: &mut [u64; 6]) {
        Second.small_bank(book, out);
    }
    fn join(&self, a: &[u8], b: &[u8], out: &mut [u8], result: &mut [u64; 4]) {
        Second.join(a, b, out, result);
    }
    fn net(&self, book: &[u8], out: &mut [u8], result: &mut [u64; 5]) {
        Second.net(book, out, result);
    }
    fn offset(&self, book: &[u8], out: &mut [u8], result: &mut [u64; 4]) {
        Second.offset(book, out, result);
    }
    fn net_and_offset(&self, book: &[u8], out: &mut [u8], result: &mut [u64; 5]) {
        Second.net_and_offset(book, out, result);
    }
    fn shortest(&self, book: &[u8], out: &mut [u8], result: &mut [u64; 5]) {
        Second.shortest(book, out, result);
    }
    fn dearest(&self, rows: usize, most: usize, out: &mut [u8], result: &mut [u64; 5]) {
        Second.dearest(rows, most, out, result);
    }
    fn options(&self, table: &[u8], out: &mut [u8], result: &mut [u64; 17]) {
        Second.options(table, out, result);
    }
    fn least_trade(
        &self,
        book: &[u8],
        table: &[u8],
        group: usize,
        band: usize,
        side: usize,
        limit: u64,
        out: &mut [u64; 5],
    ) {
        *out = answer(book, table, [group, band, side], limit);
    }
    fn table(&self, out: &mut [u8; 36]) {
        Second.table(out);
    }
}

/// Two calculations with the same wrong ladders.
fn pair(wrong: Wrong) -> [Agreeing; 2] {
    ["one", "another"].map(|name| Agreeing { name, wrong })
}

/// A line by its name and by words of what the figure is held to.
type Words = [&'static str; 2];

const BY_MATCHES: Words = ["gross", " matched + "];
const BY_ROWS: Words = ["gross", " weighted long + "];
const RESIDUAL: Words = ["residual", " - "];
const LEAST: Words = ["charge", " >= "];
const MOST: Words = ["2 x charge", " <= "];
const CARRIED: Words = ["carried", " + "];
const CHARGE: Words = ["charge", " (13.5% of residual) + "];

/// Every wrong ladder, and the first line that does not hold.
const FOUND: [(Wrong, Words); 21] = [
    (Wrong::MatchMadeUp, BY_MATCHES),
    (Wrong::TakenOffTwice, RESIDUAL),
    (Wrong::MatchAndGross, BY_ROWS),
    (Wrong::LongsOnly, BY_MATCHES),
    (Wrong::MatchDropped(4), BY_MATCHES),
    (Wrong::MatchDropped(5), BY_MATCHES),
    (Wrong::MatchDropped(6), BY_MATCHES),
    (Wrong::MatchDropped(7), BY_MATCHES),
    (Wrong::MatchDropped(8), BY_MATCHES),
    (Wrong::MatchDropped(9), BY_MATCHES),
    (Wrong::MatchDropped(10), BY_MATCHES),
    (Wrong::ResidualWithSign, BY_MATCHES),
    (Wrong::ShortsForgotten, BY_MATCHES),
    (Wrong::ChargeBelow, LEAST),
    (Wrong::ChargeAbove, MOST),
    (Wrong::CarriedOnceMore, CARRIED),
    (Wrong::CarriedUncharged, CARRIED),
    (Wrong::NoMatches, BY_MATCHES),
    (Wrong::NoMatchesCharged, BY_MATCHES),
    (Wrong::AllMatched, RESIDUAL),
    (Wrong::OneSideCharged, CHARGE),
];

/// Catches a line that is left out of the comparison, though the two calculations give the
/// same figures. Only a commodity's gross by its rows has no figure of the library in it.
#[test]
fn ladders_that_agree_and_do_not_add_up_are_found() {
    for (wrong, [name, words]) in FOUND {
        let [one, another] = pair(wrong);
        let mut cases = (0..3_000).map(|number| Case::new(1, number));
        // A wrong charge may be no least trade's limit in an earlier case.
        let found = cases.find_map(|case| {
            let told = laws::broken(&one, &case)?;
            told.contains(" does not add up: ").then_some((told, case))
        });
        let (told, case) = found.unwrap_or_else(|| panic!("{wrong:?} is not found"));
        assert_eq!(check::difference(&one, &another, &case), None, "{wrong:?}");
        let (whose, line) = told.split_once(" does not add up: ").unwrap();
        assert!(whose.starts_with("the ladder of "), "{told}");
        assert!(line.starts_with(&format!("{name} ")), "{wrong:?}: {told}");
        assert!(line.contains(words), "{wrong:?}: {told}");
    }
}

/// Catches a run that looks for differences alone.
#[test]
fn a_run_fails_with_ladders_that_do_not_add_up() {
    for (wrong, line, row) in [
        (
            Wrong::MatchMadeUp,
            "currency 0 does not add up: gross ",
            "interest,0,",
        ),
        (
            Wrong::ChargeAbove,
            "currency 0 does not add up: 2 x charge ",
            "interest,0,",
        ),
        (
            Wrong::CarriedOnceMore,
            "commodity 0 does not add up: carried 7 = 1 + 1 + 1 + 1 + 1 + 1\n",
            "commodity,0,",
        ),
    ] {
        let [one, another] = pair(wrong);
        let run = Run {
            library: &one,
            other: &another,
            cases: Case::new,
            seed: 1,
            first: 0,
            count: 3_000,
        };
        let Err(failure) = run.outcome() else {
            panic!("{wrong:?} is not found");
        };
        assert_eq!(failure.status, 1);
        let message = failure.message;
        let told = format!(" differs\nthe ladder of {line}");
        assert!(message.contains(&told), "{message}");
        // One row is enough for each.
        assert!(message.contains("\nbook A, 24 bytes: "), "{message}");
        assert!(message.contains(&format!("\n{row}")), "{message}");
    }
}
