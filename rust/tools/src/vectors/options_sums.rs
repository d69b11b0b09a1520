//! What meets in the sums of gamma and vega, and what does not: bought and sold options of one underlying and of
//! several, sums with a half mil, options without delta.

use super::build::Case;
use super::options_build::{clean, taken, with};
use books::options::OptionRow;

/// An option on a class without delta, of amount 1, by group, right, gamma, vega and volatility.
fn bare(class: u8, figures: (u8, u8, u16, u16, u16)) -> OptionRow {
    with(clean(class), |row| {
        (row.group, row.right, row.gamma, row.vega, row.volatility) = figures;
        (row.amount, row.delta) = (1, 0);
    })
}

/// Options on commodities by group, right and gamma; one of gamma 1 has an impact of 112.5 mils.
const GAMMAS: [&[(u8, u8, u16)]; 12] = [
    &[(3, 2, 1)],
    &[(3, 2, 1), (3, 3, 1)],
    &[(3, 2, 1), (4, 3, 1)],
    &[(3, 2, 2), (3, 0, 1)],
    &[(3, 0, 1), (3, 2, 2)],
    &[(3, 1, 2), (3, 3, 1)],
    &[(3, 0, 4), (3, 3, 4)],
    &[(3, 0, 9), (4, 2, 1)],
    &[(0, 3, 3), (31, 1, 1), (31, 3, 1)],
    &[(0, 2, 1), (31, 0, 1), (1, 3, 1), (30, 1, 1)],
    &[(0, 2, 1), (1, 2, 1), (0, 3, 1), (1, 3, 1), (2, 3, 1)],
    &[(7, 0, 65_535), (7, 3, 65_535), (7, 2, 65_535)],
];

/// Options on commodities by group, right, vega and volatility.
const VEGAS: [&[(u8, u8, u16, u16)]; 9] = [
    &[(3, 0, 5, 7), (3, 2, 3, 7)],
    &[(3, 1, 3, 7), (3, 3, 5, 7)],
    &[(3, 0, 5, 7), (3, 1, 3, 7)],
    &[(3, 2, 5, 7), (3, 3, 3, 7)],
    &[(3, 0, 5, 7), (3, 2, 7, 5)],
    &[(3, 0, 5, 7), (4, 2, 3, 7)],
    &[(0, 1, 5, 7), (31, 3, 5, 7)],
    &[(3, 0, 5, 0), (3, 2, 0, 7)],
    &[(7, 0, 65_535, 65_535), (7, 2, 65_535, 65_534)],
];

/// Of shares, currencies and commodities in one group, one is bought and the others are sold.
fn across() -> Vec<Vec<OptionRow>> {
    let of = |bought: u8| {
        let option = |class: u8| bare(class, (9, if class == bought { 0 } else { 3 }, 5, 4, 6));
        [2, 3, 4].map(option).to_vec()
    };
    [2, 3, 4].map(of).to_vec()
}

/// Options of one underlying whose kinds, days, deltas and sides differ; they meet all the same.
fn unlike() -> Vec<Vec<OptionRow>> {
    let share = |right, kind| with(clean(2), |row| (row.right, row.kind) = (right, kind));
    let metal = |right, days| with(clean(4), |row| (row.right, row.days) = (right, days));
    let without = |row: OptionRow| with(row, |row| row.delta = 0);
    vec![
        vec![share(0, 1), share(2, 3)],
        vec![share(1, 2), share(3, 1), share(2, 3)],
        vec![metal(1, 0), metal(2, 36_000)],
        vec![metal(0, 90), without(metal(3, 91)), metal(2, 90)],
        vec![without(share(0, 1)), share(2, 1)],
    ]
}

/// All tables.
fn tables() -> Vec<Vec<OptionRow>> {
    let gamma = |(group, right, gamma): &(u8, u8, u16)| bare(4, (*group, *right, *gamma, 0, 0));
    let vega = |(group, right, vega, volatility): &(u8, u8, u16, u16)| {
        bare(4, (*group, *right, 0, *vega, *volatility))
    };
    let gammas = GAMMAS.map(|rows| rows.iter().map(gamma).collect());
    let vegas = VEGAS.map(|rows| rows.iter().map(vega).collect());
    [gammas.to_vec(), vegas.to_vec(), across(), unlike()].concat()
}

/// All of them.
pub fn cases() -> Vec<Case> {
    taken(&tables())
}

#[cfg(test)]
mod tests {
    use super::super::options_build::table;
    use super::*;

    /// The gammas and vegas of a table, by class.
    fn greeks(rows: &[OptionRow]) -> ([u64; 3], [u64; 3]) {
        let priced = second::options(&table(rows), &mut [0; 100]);
        assert_eq!(priced.refusal.number, 0);
        (priced.gammas, priced.vegas)
    }

    #[test]
    fn gammas_and_vegas_by_hand() {
        let commodities: Vec<[u64; 2]> = tables()[..21]
            .iter()
            .map(|rows| greeks(rows))
            .map(|(gammas, vegas)| [gammas[2], vegas[2]])
            .collect();
        let gammas = [113, 225, 226, 113, 113, 0, 0, 113, 338, 226, 563, 7_372_688];
        assert_eq!(commodities[..12], gammas.map(|gamma| [gamma, 0]));
        let vegas = [14, 14, 56, 56, 0, 56, 70, 0, 65_535];
        assert_eq!(commodities[12..], vegas.map(|vega| [0, 2_500 * vega]));
    }

    /// 5 x 64 / 2 and 5 x 225 / 2 for each that is sold; 4 x 6 x 2,500 for all.
    #[test]
    fn classes_do_not_meet() {
        let expected = [[0, 160, 563], [160, 0, 563], [160, 160, 0]];
        for (rows, gammas) in across().iter().zip(expected) {
            assert_eq!(greeks(rows), (gammas, [60_000; 3]));
        }
    }

    /// A share of 2,002 has 2,002 x 7 x 64 / 2, a commodity of 4,004 has 4,004 x 7 x 225 / 2; 5 x 30 x 2,500 each.
    #[test]
    fn kinds_days_and_deltas_do_not_part_underlyings() {
        let (share, metal, vega) = (448_448, 3_153_150, 375_000);
        let expected = [
            ([0; 3], [0; 3]),
            ([share, 0, 0], [vega, 0, 0]),
            ([0; 3], [0; 3]),
            ([0, 0, metal], [0, 0, vega]),
            ([0; 3], [0; 3]),
        ];
        for (rows, expected) in unlike().iter().zip(expected) {
            assert_eq!(greeks(rows), expected);
        }
    }
}
