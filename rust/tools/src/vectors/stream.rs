//! The stream of stored calls: its bytes, as docs/VECTORS.md describes them.

use super::build::{Call, Case, Trade};
use books::ROW_BYTES;

/// Added to a tag whose books are given as runs of equal rows.
const RUNS: u8 = 0x80;

/// A book as its contents and runs of equal rows, where its length allows it.
fn runs(book: &[u8]) -> Option<Vec<u8>> {
    let (head, body) = (book.get(..8)?, &book[8..]);
    if body.len() % ROW_BYTES != 0 {
        return None;
    }
    let mut bytes = head.to_vec();
    let rows: Vec<&[u8]> = body.chunks_exact(ROW_BYTES).collect();
    for run in rows.chunk_by(|one, next| one == next) {
        let count = u16::try_from(run.len()).ok()?;
        bytes.extend(count.to_le_bytes());
        bytes.extend(run[0]);
    }
    Some(bytes)
}

/// The shorter form of some books: what is added to the tag, and their bytes.
fn shorter(books: &[&[u8]]) -> (u8, Vec<u8>) {
    let plain = books.concat();
    let packed: Option<Vec<Vec<u8>>> = books.iter().map(|book| runs(book)).collect();
    match packed.map(|packed| packed.concat()) {
        Some(packed) if packed.len() < plain.len() => (RUNS, packed),
        _ => (0, plain),
    }
}

/// The length of a book in four bytes.
fn length(book: &[u8]) -> [u8; 4] {
    let length = u32::try_from(book.len()).expect("a book of at most 65,536 bytes");
    length.to_le_bytes()
}

/// A table, after its length in two bytes.
fn with_length(table: &[u8]) -> Vec<u8> {
    let length = u16::try_from(table.len()).expect("a table of at most 256 bytes");
    [&length.to_le_bytes(), table].concat()
}

/// A call of one book: tag, table where the record has one, group, length, book.
fn of_book(tag: u8, table: &[u8], group: u16, book: &[u8]) -> Vec<u8> {
    let (form, bytes) = shorter(&[book]);
    let (group, length) = (group.to_le_bytes(), length(book));
    [&[tag + form][..], table, &group, &length, &bytes].concat()
}

/// A join: tag, lengths, books.
fn of_join(a: &[u8], b: &[u8], room: u32) -> Vec<u8> {
    let (form, books) = shorter(&[a, b]);
    let numbers = [room.to_le_bytes(), length(a), length(b)];
    [&[5 + form][..], &numbers.concat(), &books].concat()
}

/// A call that writes a book: tag, length of the output, length, book.
fn of_writing(tag: u8, book: &[u8], room: u32) -> Vec<u8> {
    let (form, bytes) = shorter(&[book]);
    let numbers = [room.to_le_bytes(), length(book)];
    [&[tag + form][..], &numbers.concat(), &bytes].concat()
}

/// The dearest book: tag, length of the output, rows, largest amount.
fn of_dearest(room: u32, rows: u32, most: u32) -> Vec<u8> {
    let numbers = [room, rows, most].map(u32::to_le_bytes);
    [&[14][..], &numbers.concat()].concat()
}

/// Options: tag, length of the output, length, option table. It has no rows of 16 bytes and so is never in runs.
fn of_options(table: &[u8], room: u32) -> Vec<u8> {
    let numbers = [room.to_le_bytes(), length(table)];
    [&[15][..], &numbers.concat(), table].concat()
}

/// A least trade: tag, table, group, band, side, limit, length, book.
fn of_least_trade(trade: &Trade, book: &[u8]) -> Vec<u8> {
    let (form, bytes) = shorter(&[book]);
    let table = with_length(&trade.table);
    let place = [trade.group, trade.band, trade.side].map(u16::to_le_bytes);
    let (limit, length) = (trade.limit.to_le_bytes(), length(book));
    let head = [&[16 + form][..], &table, &place.concat(), &limit, &length];
    [&head.concat(), &bytes[..]].concat()
}

/// One call.
fn record(case: &Case) -> Vec<u8> {
    let book = &case.book;
    match &case.call {
        Call::Check => of_book(1, &[], 0, book),
        Call::Charge => of_book(2, &[], 0, book),
        Call::InterestLadder(group) => of_book(3, &[], *group, book),
        Call::CommodityLadder(group) => of_book(4, &[], *group, book),
        Call::Join { other, room } => of_join(book, other, *room),
        Call::ChargeBy { table } => of_book(6, &with_length(table), 0, book),
        Call::InterestLadderBy { table, group } => of_book(7, &with_length(table), *group, book),
        Call::Table => vec![8],
        Call::SmallBank => of_book(9, &[], 0, book),
        Call::Net { room } => of_writing(10, book, *room),
        Call::Offset { room } => of_writing(11, book, *room),
        Call::NetAndOffset { room } => of_writing(12, book, *room),
        Call::Shortest { room } => of_writing(13, book, *room),
        Call::Dearest { room, rows, most } => of_dearest(*room, *rows, *most),
        Call::Options { room } => of_options(book, *room),
        Call::LeastTrade(trade) => of_least_trade(trade, book),
    }
}

/// All calls, and the tag that ends the stream.
pub fn encode(cases: &[Case]) -> Vec<u8> {
    let mut bytes: Vec<u8> = cases.iter().flat_map(record).collect();
    bytes.push(0);
    bytes
}

#[cfg(test)]
mod tests {
    use super::super::build::{call, charge_by, ladder_by, net, net_and_offset, offset};
    use super::super::build::{dearest, options, shortest, small_bank};
    use super::super::cases;
    use super::super::reader::read;
    use super::*;

    #[test]
    fn the_stream_reads_back() {
        let cases = cases(2);
        let bytes = encode(&cases);
        assert_eq!(read(&bytes), cases);
    }

    #[test]
    fn books_and_outputs_fit_65_536_bytes_and_tables_256() {
        for case in cases(2) {
            assert!(case.book.len() <= 65_536);
            match &case.call {
                Call::Join { other, room } => {
                    assert!(other.len() <= 65_536 && *room <= 65_536);
                }
                Call::Net { room }
                | Call::Offset { room }
                | Call::NetAndOffset { room }
                | Call::Shortest { room }
                | Call::Dearest { room, .. }
                | Call::Options { room } => {
                    assert!(*room <= 65_536);
                }
                Call::ChargeBy { table }
                | Call::InterestLadderBy { table, .. }
                | Call::LeastTrade(Trade { table, .. }) => {
                    assert!(table.len() <= 256);
                }
                _ => (),
            }
        }
    }

    /// Catches a table in another place than the page gives it, and runs that are not told.
    #[test]
    fn a_table_comes_after_the_tag() {
        let ladder = ladder_by(&[1, 2, 3], 258, &[0; 8]);
        let record = [7, 3, 0, 1, 2, 3, 2, 1, 8, 0, 0, 0];
        assert_eq!(super::record(&ladder), [&record[..], &[0; 8]].concat());
        let book = [&[2, 0, 0, 0, 0, 0, 0, 0][..], &[5; 32]].concat();
        let runs = [
            &[0x86, 0, 0, 0, 0, 40, 0, 0, 0][..],
            &book[..8],
            &[2, 0],
            &[5; 16],
        ];
        assert_eq!(super::record(&charge_by(&[], &book)), runs.concat());
        assert_eq!(super::record(&call(Call::Table, &[])), [8]);
        let runs = [
            &[0x89, 0, 0, 40, 0, 0, 0][..],
            &book[..8],
            &[2, 0],
            &[5; 16],
        ];
        assert_eq!(super::record(&small_bank(&book)), runs.concat());
        assert_eq!(super::record(&small_bank(&[7])), [9, 0, 0, 1, 0, 0, 0, 7]);
    }

    /// Catches the two lengths of a call that writes in each other's place, and one call's tag that
    /// is another's.
    #[test]
    fn the_length_of_the_output_comes_before_the_book() {
        let of = |call: fn(&[u8], usize) -> Case, tag: u8| {
            let record = [tag, 4, 3, 0, 0, 8, 0, 0, 0, 1, 2, 3, 4, 5, 6, 7, 8];
            assert_eq!(super::record(&call(&record[9..], 772)), record);
            let book = [&[2, 0, 0, 0, 0, 0, 0, 0][..], &[5; 32]].concat();
            let head = [0x80 + tag, 24, 0, 0, 0, 40, 0, 0, 0];
            let runs = [&head[..], &book[..8], &[2, 0], &[5; 16]].concat();
            assert_eq!(super::record(&call(&book, 24)), runs);
        };
        of(net, 10);
        of(offset, 11);
        of(net_and_offset, 12);
        of(shortest, 13);
    }

    /// Catches numbers in each other's place, or of fewer bytes.
    #[test]
    fn the_rows_come_before_the_largest_amount() {
        let record = [14, 4, 3, 0, 0, 5, 6, 7, 8, 9, 10, 11, 12];
        let case = dearest(0x0807_0605, 0x0c0b_0a09, 772);
        assert_eq!(super::record(&case), record);
    }

    /// Catches an option table that is cut into rows of a book: it is stored as it is, whatever it repeats.
    #[test]
    fn an_option_table_is_never_in_runs() {
        let table = [&[2, 0][..], &[5; 38]].concat();
        let head = [15, 4, 3, 0, 0, 40, 0, 0, 0];
        let record = [&head[..], &table].concat();
        assert_eq!(super::record(&options(&table, 772)), record);
    }

    /// Catches numbers of a least trade in each other's place, or of fewer bytes, and runs that are not told.
    #[test]
    fn a_least_trade_s_numbers_come_after_its_table() {
        let trade = Trade {
            table: vec![1, 2, 3],
            group: 0x0504,
            band: 0x0706,
            side: 0x0908,
            limit: 0x1110_0f0e_0d0c_0b0a,
        };
        let numbers: Vec<u8> = (1..=0x11).collect();
        let head = [&[16, 3, 0][..], &numbers, &[8, 0, 0, 0]].concat();
        let case = call(Call::LeastTrade(trade.clone()), &[7; 8]);
        assert_eq!(super::record(&case), [&head[..], &[7; 8]].concat());
        let book = [&[2, 0, 0, 0, 0, 0, 0, 0][..], &[5; 32]].concat();
        let head = [&[0x90, 3, 0][..], &numbers, &[40, 0, 0, 0]].concat();
        let runs = [&head[..], &book[..8], &[2, 0], &[5; 16]].concat();
        assert_eq!(super::record(&call(Call::LeastTrade(trade), &book)), runs);
    }

    #[test]
    fn equal_rows_make_one_run() {
        let book = [&[9; 8][..], &[1; 48], &[2; 16]].concat();
        let packed = [&[9; 8][..], &[3, 0], &[1; 16], &[1, 0], &[2; 16]].concat();
        assert_eq!(runs(&book), Some(packed));
        assert_eq!(runs(&book[..20]), None);
        assert_eq!(runs(&book[..7]), None);
    }
}
