//! What the program `vectors` must write: one line a call, by the second calculation.

use super::build::{Call, Case, Trade};
use crate::calls::{Calls, Second};

/// What every byte of an output is before a call that writes a book.
const FILL: u8 = 0xa5;

/// A checksum of an output, small enough at every step for 64 bits.
fn checksum(bytes: &[u8]) -> u64 {
    let step = |sum: u64, byte: &u8| (sum * 31 + u64::from(*byte) + 1) % 1_000_000_007;
    bytes.iter().fold(0, step)
}

/// The figures of a charge by a table.
fn charge(by: &dyn Calls, book: &[u8], table: &[u8]) -> (&'static str, Vec<u64>) {
    let mut out = [0; 75];
    by.charge(book, table, &mut out);
    ("charge", out.to_vec())
}

/// The figures of an interest ladder by a table.
fn ladder(by: &dyn Calls, book: &[u8], table: &[u8], group: u16) -> (&'static str, Vec<u64>) {
    let mut out = [0; 13];
    by.interest_ladder(book, table, group.into(), &mut out);
    ("interest-ladder", out.to_vec())
}

/// The figures of a call that writes a book into so many bytes, and the checksum of these.
fn writing<const N: usize>(room: u32, call: impl Fn(&mut [u8], &mut [u64; N])) -> Vec<u64> {
    let (mut out, mut result) = (vec![FILL; room as usize], [0; N]);
    call(&mut out, &mut result);
    [&result[..], &[checksum(&out)]].concat()
}

/// The figures of a least trade.
fn least_trade(by: &dyn Calls, book: &[u8], trade: &Trade) -> (&'static str, Vec<u64>) {
    let place = [trade.group, trade.band, trade.side].map(usize::from);
    let ([group, band, side], mut out) = (place, [0; 5]);
    by.least_trade(book, &trade.table, group, band, side, trade.limit, &mut out);
    ("least-trade", out.to_vec())
}

/// The name of a call and its figures, by a calculation and its own table of document 01.
fn answer(by: &dyn Calls, case: &Case) -> (&'static str, Vec<u64>) {
    let book = &case.book;
    let (mut check, mut commodity, mut small_bank) = ([0; 3], [0; 7], [0; 6]);
    let mut table_01 = [0; 36];
    by.table(&mut table_01);
    match &case.call {
        Call::Check => {
            by.check(book, &mut check);
            ("check", check.to_vec())
        }
        Call::Charge => charge(by, book, &table_01),
        Call::ChargeBy { table } => charge(by, book, table),
        Call::InterestLadder(group) => ladder(by, book, &table_01, *group),
        Call::InterestLadderBy { table, group } => ladder(by, book, table, *group),
        Call::CommodityLadder(group) => {
            by.commodity_ladder(book, usize::from(*group), &mut commodity);
            ("commodity-ladder", commodity.to_vec())
        }
        Call::Join { other, room } => (
            "join",
            writing(*room, |out, result| by.join(book, other, out, result)),
        ),
        Call::Net { room } => (
            "net",
            writing(*room, |out, result| by.net(book, out, result)),
        ),
        Call::Offset { room } => (
            "offset",
            writing(*room, |out, result| by.offset(book, out, result)),
        ),
        Call::NetAndOffset { room } => (
            "net-and-offset",
            writing(*room, |out, result| by.net_and_offset(book, out, result)),
        ),
        Call::Shortest { room } => (
            "shortest",
            writing(*room, |out, result| by.shortest(book, out, result)),
        ),
        Call::Dearest { room, rows, most } => (
            "dearest",
            writing(*room, |out, result| {
                by.dearest(*rows as usize, *most as usize, out, result);
            }),
        ),
        Call::Options { room } => (
            "options",
            writing(*room, |out, result| by.options(book, out, result)),
        ),
        Call::LeastTrade(trade) => least_trade(by, book, trade),
        Call::SmallBank => {
            by.small_bank(book, &mut small_bank);
            ("small-bank", small_bank.to_vec())
        }
        Call::Table => ("table", table_01.map(u64::from).to_vec()),
    }
}

/// The lines of all calls.
pub fn lines(cases: &[Case]) -> String {
    lines_by(&Second, cases)
}

/// The same by a calculation.
fn lines_by(by: &dyn Calls, cases: &[Case]) -> String {
    let mut text = String::new();
    for case in cases {
        let (name, figures) = answer(by, case);
        text.push_str(name);
        for figure in figures {
            text.push_str(&format!(" {figure}"));
        }
        text.push('\n');
    }
    text
}

#[cfg(test)]
mod tests {
    use super::super::build::{call, charge_by, join, ladder_by, net, net_and_offset, offset};
    use super::super::build::{dearest, options, row, shortest, small_bank};
    use super::*;
    use crate::calls::Proved;

    #[test]
    fn checksums() {
        assert_eq!(checksum(&[]), 0);
        assert_eq!(checksum(&[0]), 1);
        assert_eq!(checksum(&[0, 5]), 37);
        assert_eq!(checksum(&[255; 6]), {
            let all = (0..6).fold(0u128, |sum, _| sum * 31 + 256);
            (all % 1_000_000_007) as u64
        });
    }

    /// Catches a library that does not answer the stored calls as they are stored, without the
    /// program `vectors`.
    #[test]
    fn the_proved_library_gives_the_same_lines() {
        let cases = super::super::cases(1);
        let (stored, proved) = (lines(&cases), lines_by(&Proved, &cases));
        let mut both = stored.lines().zip(proved.lines());
        assert_eq!(both.find(|(stored, proved)| stored != proved), None);
        assert_eq!(stored, proved);
    }

    #[test]
    fn lines_have_every_figure() {
        let equity = [row(3, 1, 0, 0, 100), row(3, 3, 0, 0, -40)];
        let book = super::super::build::only(1, &equity);
        let issues = [7, 5, 9].map(|issue| row(3, 1, 0, 0, 5).with_issue(issue));
        let three = super::super::build::only(1, &issues);
        let cases = [
            call(Call::Check, &[]),
            call(Call::Charge, &book),
            call(Call::InterestLadder(32), &book),
            call(Call::CommodityLadder(3), &book),
            join(&[0; 8], &[0; 8], 8),
            charge_by(&[0; 36], &book),
            charge_by(&[0; 35], &book),
            ladder_by(&[9; 36], 3, &book),
            call(Call::Table, &[]),
            small_bank(&book),
            small_bank(&super::super::build::only(3, &[row(3, 0, 90, 0, -2)])),
            net(&[0; 8], 8),
            net(&[0; 8], 7),
            net(&three, 56),
        ];
        // Each of the three rows stays, and the third is compared with both others.
        let all = checksum(&three);
        let left = checksum(&[0xa5; 7]);
        let (sum, lists) = (checksum(&[0; 8]), " 0".repeat(64));
        let expected = format!(
            "check 1 0 0\n\
             charge 0 0 0 0 0 8800000 4800000 0 0 13600000 2{lists}\n\
             interest-ladder 10 0 0 0 0 0 0 0 0 0 0 0 0\n\
             commodity-ladder 0 0 0 0 0 0 0\n\
             join 0 0 0 8 {sum}\n\
             charge 0 0 0 0 0 8800000 4800000 0 0 13600000 2{lists}\n\
             charge 18 0 0 0 0 0 0 0 0 0 0{lists}\n\
             interest-ladder 19 0 0 0 0 0 0 0 0 0 0 0 0\n\
             table 0 0 20 0 40 0 70 0 125 0 175 0 225 0 19 1 69 1 119 1 194 1 13 2 88 2 32 3 226 4 \
             10 40 30 30 40 100\n\
             small-bank 20 0 0 0 0 0\n\
             small-bank 0 0 0 0 360000 360000\n\
             net 0 0 0 8 0 {sum}\n\
             net 12 0 0 0 0 {left}\n\
             net 0 0 0 56 3 {all}\n"
        );
        assert_eq!(lines(&cases), expected);
    }

    /// The same of offsetting: the first two legs go; the third, and one byte past it, stay.
    #[test]
    fn lines_of_offsetting_have_every_figure() {
        let legs = [(360, 5), (367, -5), (368, -5)].map(|(days, net)| row(7, 1, days, 800, net));
        let legs = super::super::build::only(0, &legs);
        let cases = [offset(&legs, 25), offset(&legs, 23), offset(&legs[..7], 0)];
        let third = [&[1, 0, 0, 0, 0, 0, 0, 0][..], &legs[40..], &[0xa5]].concat();
        let [third, short] = [&third, &vec![0xa5; 23]].map(|out| checksum(out));
        let expected =
            format!("offset 0 0 0 24 {third}\noffset 12 0 0 0 {short}\noffset 1 0 0 0 0\n");
        assert_eq!(lines(&cases), expected);
    }

    /// Netting and then offsetting: short 60 and 40 of issue 5, which took one comparison, go with
    /// the leg of 100; what is left, and one byte past it.
    #[test]
    fn lines_of_both_have_every_figure() {
        let bond = |days, issue, net| row(7, 1, days, 800, net).with_issue(issue);
        let rows = [
            bond(900, 0, 100),
            bond(910, 5, -60),
            bond(60, 0, 7),
            bond(910, 5, -40),
        ];
        let book = super::super::build::only(0, &rows);
        let cases = [25, 23].map(|room| net_and_offset(&book, room));
        let left = [&[1, 0, 0, 0, 0, 0, 0, 0][..], &book[40..56], &[0xa5]].concat();
        let [left, short] = [&left, &vec![0xa5; 23]].map(|out| checksum(out));
        let expected = format!(
            "net-and-offset 0 0 0 24 1 {left}\n\
             net-and-offset 12 0 0 0 0 {short}\n"
        );
        assert_eq!(lines(&cases), expected);
    }

    /// The shortest file: a share with a day, alone, and one byte past it; no room for it; nothing of
    /// seven bytes and of an accepted book, which the mark tells apart.
    #[test]
    fn lines_of_the_shortest_file_have_every_figure() {
        let rows = [row(3, 1, 0, 0, 5), row(3, 1, 1, 0, 5)];
        let book = super::super::build::only(1, &rows);
        let cases = [
            shortest(&book, 25),
            shortest(&book, 23),
            shortest(&[7; 7], 0),
            shortest(&[0; 8], 8),
            shortest(&[0; 9], 8),
        ];
        let share = [&[0, 0, 1, 0, 0, 0, 0, 0][..], &book[24..], &[0xa5]].concat();
        let outs = [
            &share[..],
            &[0xa5; 23],
            &[0xa5; 8],
            &[1, 0, 0, 0, 0, 0, 0, 0],
        ];
        let [share, short, kept, one] = outs.map(checksum);
        let expected = format!(
            "shortest 0 0 0 24 0 {share}\n\
             shortest 12 0 0 0 0 {short}\n\
             shortest 0 0 0 0 0 0\n\
             shortest 0 0 0 0 1 {kept}\n\
             shortest 0 0 0 8 0 {one}\n"
        );
        assert_eq!(lines(&cases), expected);
    }

    /// The dearest book of one row of at most 7, and one byte past it; without room; of no rows; and
    /// refused for either number.
    #[test]
    fn lines_of_the_dearest_book_have_every_figure() {
        let cases = [
            dearest(1, 7, 25),
            dearest(1, 7, 23),
            dearest(0, 7, 8),
            dearest(4_001, 7, 8),
            dearest(1, 0, 0),
        ];
        let paper = [0, 3, 0xa0, 0x8c, 0, 0, 0, 0, 7, 0, 0, 0, 0, 0, 0, 0];
        let one = [&[1, 0, 0, 0, 0, 0, 0, 0][..], &paper, &[0xa5]].concat();
        let [one, short, none, kept] = [&one[..], &[0xa5; 23], &[0; 8], &[0xa5; 8]].map(checksum);
        let expected = format!(
            "dearest 0 0 0 24 1435000 {one}\n\
             dearest 12 0 0 0 0 {short}\n\
             dearest 0 0 0 8 0 {none}\n\
             dearest 22 0 0 0 0 {kept}\n\
             dearest 22 0 0 0 0 0\n"
        );
        assert_eq!(lines(&cases), expected);
    }

    /// Two options: a sold put on a diversified share, 30 at a delta of 1, gamma 1, vega 1 and volatility 1, and a
    /// sold call on gold without delta, 2 of gamma 2, vega 2; and one byte past the book of one row. The same
    /// without room, with a class that is none, and without its last byte.
    #[test]
    fn lines_of_options_have_every_figure() {
        let share = [2, 1, 3, 2, 30, 0, 0, 0, 0x10, 0x27, 1, 0, 1, 0, 1, 0, 0, 0];
        let gold = [3, 0, 2, 0, 2, 0, 0, 0, 0, 0, 2, 0, 2, 0, 1, 0, 0, 0];
        let table = [&[2, 0][..], &share, &gold].concat();
        let mut bad = table.clone();
        bad[20] = 5;
        let cases = [
            options(&table, 25),
            options(&table, 23),
            options(&bad, 25),
            options(&table[..37], 0),
        ];
        let row = [1, 2, 0, 0, 0, 0, 0, 0, 30, 0, 0, 0, 0, 0, 0, 0];
        let book = [&[0, 0, 1, 0, 0, 0, 0, 0][..], &row, &[0xa5]].concat();
        let [book, short, kept] = [&book[..], &[0xa5; 23], &[0xa5; 25]].map(checksum);
        let zeros = " 0".repeat(14);
        let expected = format!(
            "options 0 0 0 24 960 128 0 2500 5000 0 0 0 1200000 2400000 0 0 3600000 {book}\n\
             options 12 0 0{zeros} {short}\n\
             options 17 1 0{zeros} {kept}\n\
             options 16 0 0{zeros} 0\n"
        );
        assert_eq!(lines(&cases), expected);
    }

    /// Least trades: 48 shorts of the band of a bond, long 100, to 1,000,000; 0 to what it costs; none to nothing; a bad
    /// second row; and a side that there is not.
    #[test]
    fn lines_of_least_trades_have_every_figure() {
        let bond = row(7, 1, 900, 800, 100);
        let [good, bad] = [bond.with_group(8), bond.with_days(36_001)]
            .map(|second| super::super::build::only(0, &[bond, second]));
        let trade = |book: &[u8], side, limit| {
            let trade = Trade {
                table: second::table().to_vec(),
                group: 7,
                band: 5,
                side,
                limit,
            };
            call(Call::LeastTrade(trade), book)
        };
        let cases = [
            trade(&good, 1, 1_000_000),
            trade(&good, 0, 1_750_000),
            trade(&good, 1, 0),
            trade(&bad, 1, 1_000_000),
            trade(&bad, 2, 1_000_000),
        ];
        let expected = "least-trade 0 0 0 1 48\n\
                        least-trade 0 0 0 1 0\n\
                        least-trade 0 0 0 0 0\n\
                        least-trade 6 1 0 0 0\n\
                        least-trade 21 0 0 0 0\n";
        assert_eq!(lines(&cases), expected);
    }
}
