//! Each named field against its entry of the C interface, on books whose entries differ.
//! Catches two fields that are exchanged, and one that is read from another's entry.

use market_risk::{charge, commodity_ladder, dearest, dearest_book};
use market_risk::{interest_ladder, join, joined, least_trade, net, net_and_offset};
use market_risk::{net_and_offset_book, netted, offset, offset_book, options, options_book};
use market_risk::{raw, shortest, shortest_file, small_bank, Refusal, Shortest, Side, Table};

/// A row of 16 bytes with one signed amount: long above zero, short below.
fn row(group: u8, kind: u8, days: u16, coupon: u16, net: i32) -> [u8; 16] {
    let mut row = [0; 16];
    row[..2].copy_from_slice(&[group, kind]);
    row[2..4].copy_from_slice(&days.to_le_bytes());
    row[4..6].copy_from_slice(&coupon.to_le_bytes());
    let at = if net > 0 { 8 } else { 12 };
    row[at..at + 4].copy_from_slice(&net.unsigned_abs().to_le_bytes());
    row
}

/// A book of four bodies.
fn book(bodies: [&[[u8; 16]]; 4]) -> Vec<u8> {
    let head = bodies.iter().flat_map(|body| [body.len() as u8, 0]);
    head.chain(bodies.concat().concat()).collect()
}

/// A book of government rows of currency 7 at coupon 800, by days and nets.
fn bonds(nets: [(u16, i32); 8]) -> Vec<u8> {
    let rows = nets.map(|(days, net)| row(7, 1, days, 800, net));
    book([&rows, &[], &[], &[]])
}

/// All zones but 2-3 are matched.
fn near() -> Vec<u8> {
    bonds([
        (60, 10),
        (60, -4),
        (150, -1),
        (270, 100),
        (600, 2),
        (900, -6),
        (1500, 3),
        (2880, -5),
    ])
}

/// All zones but 1-3 are matched.
fn far() -> Vec<u8> {
    bonds([
        (60, 10),
        (60, -4),
        (150, -1),
        (270, 10),
        (600, 2),
        (900, -16),
        (1500, 13),
        (2880, -5),
    ])
}

/// The entries of one book, and the fields that are read from them, in their order.
type Read = (Vec<u64>, Vec<u64>);

/// Over all books, field number n is entry 3 + n and can be no other; each is somewhere
/// not zero, and no two of one book are equal.
fn hold(books: &[Read]) {
    let [fields, entries] = [books[0].1.len(), books[0].0.len()];
    assert_eq!(entries, 3 + fields);
    for (entries, _) in books {
        let mut sorted = entries[3..].to_vec();
        sorted.sort_unstable();
        sorted.dedup();
        assert_eq!(sorted.len(), fields, "equal figures in {entries:?}");
    }
    for field in 0..fields {
        assert!(books.iter().any(|(_, fields)| fields[field] != 0));
        let fits = |entry: &usize| {
            let same = |(entries, fields): &Read| entries[*entry] == fields[field];
            books.iter().all(same)
        };
        let found: Vec<usize> = (0..entries).filter(fits).collect();
        assert_eq!(found, [3 + field], "field {field}");
    }
}

/// The entries and the fields of a report.
fn charged(book: &[u8]) -> Read {
    let table = Table::amendment();
    let mut entries = [0; 75];
    raw::charge(book, table.bytes(), &mut entries);
    let report = charge(book, &table).unwrap();
    let figures = [
        report.interest_specific,
        report.interest_general,
        report.equity_specific,
        report.equity_general,
        report.exchange,
        report.commodity,
        report.total,
        report.taken,
    ];
    let fields = [&figures[..], &report.specifics, &report.generals].concat();
    (entries.to_vec(), fields)
}

#[test]
fn report() {
    // Currency g, other, 270 days, 10 + g: 8% of a unit is 80,000 mils, 0.70% is 7,000.
    // 10 to 41 are 816. Diversified, 3: 4% is 120,000, 8% is 240,000. Gold, 2: 8% is 160,000.
    // Commodity past the last step, 1: 15%. 35 rows.
    let currencies: Vec<[u8; 16]> = (0..32)
        .map(|group| row(group, 3, 270, 300, 10 + i32::from(group)))
        .collect();
    let book = book([
        &currencies,
        &[row(1, 2, 0, 0, 3)],
        &[row(0, 0, 0, 0, -2)],
        &[row(0, 0, 36_000, 0, 1)],
    ]);
    let (specific, general) = (816 * 80_000, 816 * 7_000);
    let total = specific + general + 670_000;
    let mut by_hand = vec![
        specific, general, 120_000, 240_000, 160_000, 150_000, total, 35,
    ];
    by_hand.extend((10..42).map(|amount| amount * 80_000));
    by_hand.extend((10..42).map(|amount| amount * 7_000));
    let read = charged(&book);
    assert_eq!(read.0[3..], by_hand);
    hold(&[read]);
}

/// The entries and the fields of currency 7's ladder.
fn interest(book: &[u8]) -> Read {
    let table = Table::amendment();
    let mut entries = [0; 13];
    raw::interest_ladder(book, table.bytes(), 7, &mut entries);
    let ladder = interest_ladder(book, &table, 7).unwrap();
    let fields = vec![
        ladder.gross,
        ladder.vertical,
        ladder.zones[0],
        ladder.zones[1],
        ladder.zones[2],
        ladder.zones_1_2,
        ladder.zones_2_3,
        ladder.zones_1_3,
        ladder.residual,
        ladder.charge,
    ];
    (entries.to_vec(), fields)
}

#[test]
fn interest_ladders() {
    // A match of zones 1 and 2 uses one of them up, so that two books are needed.
    // near: bands +200 -80, -40, +7,000 | +250, -1,050 | +825, -1,875.
    //   Nets 7,080, -800 and -1,050; the first takes 800 and 1,050 and leaves 5,230.
    // far: bands +200 -80, -40, +700 | +250, -2,800 | +3,575, -1,875.
    //   Nets 780, -2,550 and 1,700; the second takes 780 and 1,700 and leaves 70.
    let (near, far) = (interest(&near()), interest(&far()));
    let by_hand = [11_320, 80, 40, 250, 825, 800, 0, 1_050, 5_230, 694_650];
    assert_eq!(near.0[3..], by_hand);
    let by_hand = [9_520, 80, 40, 250, 1_875, 780, 1_700, 0, 70, 172_350];
    assert_eq!(far.0[3..], by_hand);
    hold(&[near, far]);
}

#[test]
fn commodity_ladders() {
    // E5, worked in document 01.
    let rows = [(150, 800), (150, -1000), (600, 600), (1100, -600)];
    let rows = rows.map(|(days, net)| row(5, 0, days, 0, net));
    let book = book([&[], &[], &[], &rows]);
    let mut entries = [0; 7];
    raw::commodity_ladder(&book, 5, &mut entries);
    assert_eq!(entries[3..], [1_400, 1_200, 200, 79_200_000]);
    let ladder = commodity_ladder(&book, 5).unwrap();
    let fields = vec![
        ladder.matches,
        ladder.carried,
        ladder.residual,
        ladder.charge,
    ];
    hold(&[(entries.to_vec(), fields)]);
}

#[test]
fn small_banks() {
    // Gold, 2: 8% is 160,000. Commodity, 1: 15% and 3% are 180,000.
    let book = book([&[], &[], &[row(0, 0, 0, 0, -2)], &[row(0, 0, 720, 0, 1)]]);
    let mut entries = [0; 6];
    raw::small_bank(&book, &mut entries);
    assert_eq!(entries[3..], [160_000, 180_000, 340_000]);
    let charged = small_bank(&book).unwrap();
    let fields = vec![charged.exchange, charged.commodity, charged.total];
    hold(&[(entries.to_vec(), fields)]);
}

#[test]
fn joins_and_their_refusals() {
    let (a, b) = (near(), far());
    let mut out = vec![9; 300];
    let mut entries = [0; 4];
    raw::join(&a, &b, &mut out, &mut entries);
    assert_eq!(entries, [0, 0, 0, 8 + 16 * 16]);
    let expected = [&[16, 0, 0, 0, 0, 0, 0, 0], &a[8..], &b[8..]].concat();
    assert_eq!(out[..264], expected);
    assert_eq!(join(&a, &b, &mut vec![9; 300]), Ok(264));
    assert_eq!(joined(&a, &b), Ok(expected));
    // Number, row and book all differ: 36,001 days in row 2 of the second book.
    let mut bad = b.clone();
    bad[42..44].copy_from_slice(&36_001u16.to_le_bytes());
    raw::join(&a, &bad, &mut out, &mut entries);
    assert_eq!(entries, [6, 2, 1, 0]);
    let [number, row, book, _] = entries;
    assert_eq!(joined(&a, &bad), Err(Refusal { number, row, book }));
}

#[test]
fn netting_and_its_refusals() {
    // Issue 5 in rows 0 and 2: long 10 and short 4.
    let mut rows = [(1080, 10), (270, 3), (1080, -4)].map(|(days, net)| row(7, 1, days, 800, net));
    (rows[0][6], rows[2][6]) = (5, 5);
    let whole = book([&rows, &[], &[], &[]]);
    let mut one = row(7, 1, 1080, 800, 6);
    one[6] = 5;
    let expected = book([&[one, rows[1]], &[], &[], &[]]);
    let (mut out, mut entries) = (vec![9; 50], [0; 5]);
    raw::net(&whole, &mut out, &mut entries);
    assert_eq!(entries, [0, 0, 0, 8 + 2 * 16, 1]);
    assert_eq!(out, [&expected[..], &[9; 10]].concat());
    let done = net(&whole, &mut out).unwrap();
    let fields = vec![done.length as u64, done.comparisons];
    hold(&[(entries.to_vec(), fields)]);
    assert_eq!(netted(&whole), Ok(expected));
    // Number and row differ: row 2 is of another currency.
    rows[2][0] = 8;
    let bad = book([&rows, &[], &[], &[]]);
    raw::net(&bad, &mut out, &mut entries);
    assert_eq!(entries, [13, 2, 0, 0, 0]);
    let [number, row, book, ..] = entries;
    assert_eq!(netted(&bad), Err(Refusal { number, row, book }));
    assert_eq!(net(&bad, &mut out), Err(Refusal { number, row, book }));
}

#[test]
fn offsetting_and_its_refusals() {
    // Rows 0 and 2 offset each other.
    let mut rows = [(1080, 10), (270, 3), (1090, -10)].map(|(days, net)| row(7, 1, days, 800, net));
    let whole = book([&rows, &[], &[], &[]]);
    let expected = book([&rows[1..2], &[], &[], &[]]);
    let (mut out, mut entries) = (vec![9; 30], [0; 4]);
    raw::offset(&whole, &mut out, &mut entries);
    assert_eq!(entries, [0, 0, 0, 8 + 16]);
    assert_eq!(out, [&expected[..], &[9; 6]].concat());
    assert_eq!(offset(&whole, &mut out), Ok(24));
    assert_eq!(offset_book(&whole), Ok(expected));
    // Number and row differ: 36,001 days in row 2.
    rows[2][2..4].copy_from_slice(&36_001u16.to_le_bytes());
    let bad = book([&rows, &[], &[], &[]]);
    raw::offset(&bad, &mut out, &mut entries);
    assert_eq!(entries, [6, 2, 0, 0]);
    let [number, row, book, _] = entries;
    assert_eq!(offset_book(&bad), Err(Refusal { number, row, book }));
    assert_eq!(offset(&bad, &mut out), Err(Refusal { number, row, book }));
}

#[test]
fn both_in_one_call_and_their_refusals() {
    // Rows 1 and 3, issue 5, are short 10 together and go with row 0; row 2 stays.
    let mut rows =
        [(1080, 10), (1090, -6), (270, 3), (1090, -4)].map(|(days, net)| row(7, 1, days, 800, net));
    (rows[1][6], rows[3][6]) = (5, 5);
    let whole = book([&rows, &[], &[], &[]]);
    let expected = book([&rows[2..3], &[], &[], &[]]);
    let (mut out, mut entries) = (vec![9; 30], [0; 5]);
    raw::net_and_offset(&whole, &mut out, &mut entries);
    assert_eq!(entries, [0, 0, 0, 8 + 16, 1]);
    assert_eq!(out, [&expected[..], &[9; 6]].concat());
    let done = net_and_offset(&whole, &mut out).unwrap();
    let fields = vec![done.length as u64, done.comparisons];
    hold(&[(entries.to_vec(), fields)]);
    assert_eq!(net_and_offset_book(&whole), Ok(expected));
    // Number and row differ: row 3 is of another currency.
    rows[3][0] = 8;
    let bad = book([&rows, &[], &[], &[]]);
    raw::net_and_offset(&bad, &mut out, &mut entries);
    assert_eq!(entries, [13, 3, 0, 0, 0]);
    let [number, row, book, ..] = entries;
    let refusal = Refusal { number, row, book };
    assert_eq!(net_and_offset_book(&bad), Err(refusal));
    assert_eq!(net_and_offset(&bad, &mut out), Err(refusal));
}

#[test]
fn shortest_files_and_their_refusal() {
    // Row 1 has 36,001 days, and is shown alone.
    let rows = [(1080, 10), (36_001, 3)].map(|(days, net)| row(7, 1, days, 800, net));
    let whole = book([&rows, &[], &[], &[]]);
    let expected = book([&rows[1..], &[], &[], &[]]);
    let (mut out, mut entries) = (vec![9; 30], [0; 5]);
    raw::shortest(&whole, &mut out, &mut entries);
    assert_eq!(entries, [0, 0, 0, 8 + 16, 0]);
    assert_eq!(out, [&expected[..], &[9; 6]].concat());
    assert_eq!(
        shortest(&whole, &mut out),
        Ok(Shortest::Refused { length: 24 })
    );
    assert_eq!(shortest_file(&whole), Some(expected));
    // Length and mark differ: an accepted book.
    let good = book([&rows[..1], &[], &[], &[]]);
    raw::shortest(&good, &mut out, &mut entries);
    assert_eq!(entries, [0, 0, 0, 0, 1]);
    assert_eq!(shortest(&good, &mut out), Ok(Shortest::Accepted));
    assert_eq!(shortest_file(&good), None);
    raw::shortest(&whole, &mut out[..23], &mut entries);
    assert_eq!(entries, [12, 0, 0, 0, 0]);
    let [number, row, book, ..] = entries;
    let refusal = Refusal { number, row, book };
    assert_eq!(shortest(&whole, &mut out[..23]), Err(refusal));
}

#[test]
fn dearest_books_and_their_refusals() {
    let row = row(0, 3, 36_000, 0, 7);
    let expected = book([&[row; 2], &[], &[], &[]]);
    let (mut out, mut entries) = (vec![9; 46], [0; 5]);
    raw::dearest(2, 7, &mut out, &mut entries);
    assert_eq!(entries, [0, 0, 0, 40, 2_870_000]);
    assert_eq!(out, [&expected[..], &[9; 6]].concat());
    let done = dearest(2, 7, &mut out).unwrap();
    hold(&[(entries.to_vec(), vec![done.length as u64, done.total])]);
    // Rows and largest amount differ, and so do 22 and 12.
    assert_eq!(dearest_book(2, 7), Ok((expected, 2_870_000)));
    assert_eq!(dearest_book(7, 2).unwrap().0.len(), 8 + 7 * 16);
    for (rows, room, refused) in [(4_001, 46, 22), (2, 39, 12)] {
        raw::dearest(rows, 7, &mut out[..room], &mut entries);
        assert_eq!(entries, [refused, 0, 0, 0, 0]);
        let [number, row, book, ..] = entries;
        let refusal = Refusal { number, row, book };
        assert_eq!(dearest(rows, 7, &mut out[..room]), Err(refusal));
    }
}

/// An option of class, group, right and kind, of delta 1: its amount, gamma, vega, volatility and days.
fn option(sort: [u8; 4], amount: u32, greeks: [u16; 4]) -> Vec<u8> {
    let short = [10_000]
        .into_iter()
        .chain(greeks)
        .flat_map(u16::to_le_bytes);
    let bytes = sort.into_iter().chain(amount.to_le_bytes());
    bytes.chain(short).collect()
}

#[test]
fn options_and_their_refusals() {
    // A diversified share, 30: 4% and 8%. Gold, 2: 8%. A commodity past the last step, 1: 15%. All are sold.
    let mut table = vec![3, 0];
    table.extend(option([4, 0, 3, 0], 1, [4, 3, 1, 36_000]));
    table.extend(option([2, 1, 3, 2], 30, [1, 1, 1, 0]));
    table.extend(option([3, 0, 2, 0], 2, [2, 2, 1, 0]));
    let expected = book([
        &[],
        &[row(1, 2, 0, 0, 30)],
        &[row(0, 0, 0, 0, -2)],
        &[row(0, 0, 36_000, 0, 1)],
    ]);
    let (mut out, mut entries) = (vec![9; 60], [0; 17]);
    raw::options(&table, &mut out, &mut entries);
    assert_eq!(out, [&expected[..], &[9; 4]].concat());
    let (gammas, vegas) = ([960, 128, 450], [2_500, 5_000, 7_500]);
    let charges = [0, 0, 1_200_000, 2_400_000, 160_000, 150_000, 3_910_000];
    let by_hand = [&[0, 0, 0, 56][..], &gammas, &vegas, &charges].concat();
    assert_eq!(entries[..], by_hand);
    let priced = options(&table, &mut out).unwrap();
    assert_eq!((priced.interest_specific, priced.interest_general), (0, 0));
    let fields = vec![
        priced.length as u64,
        priced.gamma.equity,
        priced.gamma.exchange,
        priced.gamma.commodity,
        priced.vega.equity,
        priced.vega.exchange,
        priced.vega.commodity,
        priced.equity_specific,
        priced.equity_general,
        priced.exchange,
        priced.commodity,
        priced.total,
    ];
    // All but the charges of interest, which are 0.
    hold(&[([&entries[..10], &entries[12..]].concat(), fields)]);
    assert_eq!(options_book(&table), Ok((expected, priced)));
    // Number and row differ: option 2 has a day.
    assert_eq!(options(&table, &mut out[..55]).unwrap_err().number, 12);
    table[2 + 2 * 18 + 16] = 1;
    raw::options(&table, &mut out, &mut entries);
    assert_eq!(entries[..3], [17, 2, 0]);
    assert_eq!(entries[3..], [0; 14]);
    let [number, row, book, ..] = entries;
    let refusal = Refusal { number, row, book };
    assert_eq!(options(&table, &mut out), Err(refusal));
    assert_eq!(options_book(&table), Err(refusal));
}

#[test]
fn least_trades_and_their_refusals() {
    // Band 5, weight 175: 100 long cost 1,750,000, and each unit short 15,750 less.
    let mut rows = [row(7, 1, 900, 800, 100), row(8, 1, 900, 800, 3)];
    let whole = book([&rows, &[], &[], &[]]);
    let table = Table::amendment();
    let (mut entries, bytes) = ([0; 5], table.bytes());
    let trade =
        |book: &[u8], group, band, side, limit| least_trade(book, &table, group, band, side, limit);
    raw::least_trade(&whole, bytes, 7, 5, 1, 1_000_000, &mut entries);
    assert_eq!(entries, [0, 0, 0, 1, 48]);
    assert_eq!(trade(&whole, 7, 5, Side::Short, 1_000_000), Ok(Some(48)));
    // None and 0 differ, and so do the sides and the groups.
    raw::least_trade(&whole, bytes, 7, 5, 0, 1_000_000, &mut entries);
    assert_eq!(entries, [0, 0, 0, 0, 0]);
    assert_eq!(trade(&whole, 7, 5, Side::Long, 1_000_000), Ok(None));
    raw::least_trade(&whole, bytes, 8, 5, 0, 1_000_000, &mut entries);
    assert_eq!(entries, [0, 0, 0, 1, 0]);
    assert_eq!(trade(&whole, 8, 5, Side::Long, 1_000_000), Ok(Some(0)));
    // Group, band and limit differ in what is refused.
    assert_eq!(trade(&whole, 32, 5, Side::Long, 0).unwrap_err().number, 10);
    assert_eq!(trade(&whole, 7, 15, Side::Long, 0).unwrap_err().number, 21);
    // Number and row differ: 36,001 days in row 1.
    rows[1][2..4].copy_from_slice(&36_001u16.to_le_bytes());
    let bad = book([&rows, &[], &[], &[]]);
    raw::least_trade(&bad, bytes, 7, 5, 1, 1_000_000, &mut entries);
    assert_eq!(entries, [6, 1, 0, 0, 0]);
    let [number, row, book, ..] = entries;
    let refusal = Refusal { number, row, book };
    assert_eq!(trade(&bad, 7, 5, Side::Short, 1_000_000), Err(refusal));
}
