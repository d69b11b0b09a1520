//! Results of the fast calls beside those of the second calculation.
#![allow(dead_code)]

pub mod options;

/// What a result holds before a call, which must overwrite every entry.
const OLD: u64 = 0x5555;

/// Compares the five calls on one book, under document 01's table.
pub fn compare(book: &[u8], group: usize) {
    let (mut check, mut commodity) = ([OLD; 3], [OLD; 7]);
    fast::check(book, &mut check);
    fast::commodity_ladder(book, group, &mut commodity);
    assert_eq!(check, second::check(book).entries(), "{book:?}");
    let ladder = second::commodity_ladder(book, group);
    assert_eq!(commodity, ladder.entries(), "{book:?}");
    compare_small_bank(book);
    compare_under(&second::table(), book, group);
}

/// Compares the small bank's call and gives the number of its refusal.
pub fn compare_small_bank(book: &[u8]) -> u64 {
    let mut small_bank = [OLD; 6];
    fast::small_bank(book, &mut small_bank);
    assert_eq!(small_bank, second::small_bank(book).entries(), "{book:?}");
    small_bank[0]
}

/// Compares the two calls that take a table, and gives the number of the charge's refusal.
pub fn compare_under(table: &[u8], book: &[u8], group: usize) -> u64 {
    let (mut charge, mut interest) = ([OLD; 75], [OLD; 13]);
    fast::charge(book, table, &mut charge);
    fast::interest_ladder(book, table, group, &mut interest);
    let report = second::charge(book, table).entries();
    assert_eq!(charge, report, "{table:?} {book:?}");
    let ladder = second::interest_ladder(book, table, group);
    assert_eq!(interest, ladder.entries(), "{table:?} {book:?}");
    if let Some(expert_charge) = fast::expert_charge() {
        charge = [OLD; 75];
        expert_charge(book, table, &mut charge);
        assert_eq!(charge, report, "{table:?} {book:?}");
    }
    report[0]
}

/// Compares a join into so many bytes and gives its refusal's number.
pub fn compare_join(a: &[u8], b: &[u8], room: usize) -> u64 {
    let (mut out, mut second_out) = (vec![0x55; room], vec![0x55; room]);
    let mut result = [OLD; 4];
    fast::join(a, b, &mut out, &mut result);
    let joined = second::join(a, b, &mut second_out);
    assert_eq!(result, joined.entries());
    assert_eq!(out, second_out);
    result[0]
}

/// Compares netting into so many bytes and gives its refusal's number.
pub fn compare_net(book: &[u8], room: usize) -> u64 {
    let (mut out, mut second_out) = (vec![0x55; room], vec![0x55; room]);
    let mut result = [OLD; 5];
    fast::net(book, &mut out, &mut result);
    let netted = second::net(book, &mut second_out);
    assert_eq!(result, netted.entries(), "{book:?}");
    assert_eq!(out, second_out, "{book:?}");
    result[0]
}

/// Compares netting and then offsetting into so many bytes and gives its refusal's number.
pub fn compare_both(book: &[u8], room: usize) -> u64 {
    let (mut out, mut second_out) = (vec![0x55; room], vec![0x55; room]);
    let mut result = [OLD; 5];
    fast::net_and_offset(book, &mut out, &mut result);
    let written = second::net_and_offset(book, &mut second_out);
    assert_eq!(result, written.entries(), "{book:?}");
    assert_eq!(out, second_out, "{book:?}");
    result[0]
}

/// Compares the shortest file into so many bytes and gives the number of the call's refusal.
pub fn compare_shortest(book: &[u8], room: usize) -> u64 {
    let (mut out, mut second_out) = (vec![0x55; room], vec![0x55; room]);
    let mut result = [OLD; 5];
    fast::shortest(book, &mut out, &mut result);
    let shown = second::shortest(book, &mut second_out);
    assert_eq!(result, shown.entries(), "{book:?}");
    assert_eq!(out, second_out, "{book:?}");
    result[0]
}

/// Compares the dearest book into so many bytes and gives the number of the call's refusal.
pub fn compare_dearest(rows: usize, most: usize, room: usize) -> u64 {
    let (mut out, mut second_out) = (vec![0x55; room], vec![0x55; room]);
    let mut result = [OLD; 5];
    fast::dearest(rows, most, &mut out, &mut result);
    let written = second::dearest(rows as u64, most as u64, &mut second_out);
    assert_eq!(result, written.entries(), "{rows} {most} {room}");
    assert_eq!(out, second_out, "{rows} {most} {room}");
    result[0]
}

/// Compares the options of a table, with so many bytes for their book, and gives the refusal's number.
pub fn compare_options(table: &[u8], room: usize) -> u64 {
    let (mut out, mut second_out) = (vec![0x55; room], vec![0x55; room]);
    let mut result = [OLD; 17];
    fast::options(table, &mut out, &mut result);
    let written = second::options(table, &mut second_out);
    assert_eq!(result, written.entries(), "{table:?}");
    assert_eq!(out, second_out, "{table:?}");
    result[0]
}

/// Where a trade is added: a currency, a band of it and a side.
pub type Place = [usize; 3];

/// Compares the least trade, and gives its entries.
pub fn compare_least_trade(book: &[u8], table: &[u8], place: Place, limit: u64) -> [u64; 5] {
    let [group, band, side] = place;
    let mut result = [OLD; 5];
    fast::least_trade(book, table, group, band, side, limit, &mut result);
    let least = second::least_trade(book, table, group, band, side, limit);
    assert_eq!(
        result,
        least.entries(),
        "{place:?} {limit} {table:?} {book:?}"
    );
    result
}

/// Compares offsetting into so many bytes and gives its refusal's number.
pub fn compare_offset(book: &[u8], room: usize) -> u64 {
    let (mut out, mut second_out) = (vec![0x55; room], vec![0x55; room]);
    let mut result = [OLD; 4];
    fast::offset(book, &mut out, &mut result);
    let written = second::offset(book, &mut second_out);
    assert_eq!(result, written.entries(), "{book:?}");
    assert_eq!(out, second_out, "{book:?}");
    result[0]
}
