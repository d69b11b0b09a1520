//! The smallest case that still fails, as far as simple cuts lead.

use super::case::Case;
use super::cuts::{cuts, in_one_group};
use super::table_cuts::nearer;

/// How many cuts are tried at most: full books that cannot be cut have very many.
const MOST_TRIES: usize = 10_000;

/// What is written of a book, or why nothing is.
type Written = Result<Vec<u8>, second::Refusal>;

/// The shortest file that shows a book's refusal, or no bytes of an accepted one.
fn shown(book: &[u8]) -> Written {
    Ok(second::shortest_file(book).unwrap_or_default())
}

/// An output for a first book cut to another: it keeps its distance from what is written, if
/// anything is.
fn room(room: usize, whole: &Written, cut: Written) -> usize {
    match (whole, cut) {
        (Ok(whole), Ok(cut)) => (room + cut.len()).saturating_sub(whole.len()),
        _ => room,
    }
}

/// Makes an output just long enough, if it is longer.
fn shorten(room: &mut usize, written: Written) {
    *room = written.map_or(*room, |written| written.len().min(*room));
}

/// The case with a plainer group, with an output of no bytes or one that is just long enough, or with
/// all rows in group 0.
fn plainer(case: &Case) -> impl Iterator<Item = Case> + '_ {
    let with = |change: fn(&mut Case)| {
        let mut plain = case.clone();
        change(&mut plain);
        plain
    };
    let plain = [
        with(|case| case.group = 0),
        with(|case| case.room = 0),
        with(|case| case.net_room = 0),
        with(|case| case.offset_room = 0),
        with(|case| case.both_room = 0),
        with(|case| case.shortest_room = 0),
        with(|case| shorten(&mut case.net_room, second::netted(&case.a))),
        with(|case| shorten(&mut case.offset_room, second::offset_book(&case.a))),
        with(|case| shorten(&mut case.both_room, second::net_and_offset_book(&case.a))),
        with(|case| shorten(&mut case.shortest_room, shown(&case.a))),
        // A ladder's own rows leave their group with it.
        with(|case| {
            case.group = 0;
            case.trade.group = case.trade.group / 32 * 32;
            (case.a, case.b) = (in_one_group(&case.a), in_one_group(&case.b));
        }),
    ];
    plain.into_iter().filter(move |plain| plain != case)
}

/// The smaller cases next to a case. The outputs keep their distance from what is written.
fn smaller(case: &Case) -> impl Iterator<Item = Case> + '_ {
    let less = |before: &[u8], after: &[u8]| before.len().saturating_sub(after.len());
    let of_b = cuts(&case.b).map(move |b| Case {
        room: case.room.saturating_sub(less(&case.b, &b)),
        b,
        ..case.clone()
    });
    let (netted, offset) = (second::netted(&case.a), second::offset_book(&case.a));
    let (both, file) = (second::net_and_offset_book(&case.a), shown(&case.a));
    let of_a = cuts(&case.a).map(move |a| Case {
        room: case.room.saturating_sub(less(&case.a, &a)),
        net_room: room(case.net_room, &netted, second::netted(&a)),
        offset_room: room(case.offset_room, &offset, second::offset_book(&a)),
        both_room: room(case.both_room, &both, second::net_and_offset_book(&a)),
        shortest_room: room(case.shortest_room, &file, shown(&a)),
        trade: case.trade.moved([&case.a, &case.table], [&a, &case.table]),
        a,
        ..case.clone()
    });
    let of_table = nearer(&case.table).map(|table| Case {
        trade: case.trade.moved([&case.a, &case.table], [&case.a, &table]),
        table,
        ..case.clone()
    });
    let of_asked = case.dearest.plainer().map(|dearest| Case {
        dearest,
        ..case.clone()
    });
    let of_options = case.options.smaller().map(|options| Case {
        options,
        ..case.clone()
    });
    let of_trade = case.trade.plainer().map(|trade| Case {
        trade,
        ..case.clone()
    });
    // Most trades do not matter, and some take long.
    let plainer = of_trade.chain(plainer(case));
    let plainer = plainer.chain(of_asked).chain(of_options);
    plainer.chain(of_table).chain(of_b).chain(of_a)
}

/// Cuts a failing case for as long as a cut still fails.
pub fn shrink(case: &Case, fails: &mut dyn FnMut(&Case) -> bool) -> Case {
    shrink_within(MOST_TRIES, case, fails)
}

/// The same with so many tries.
fn shrink_within(tries: usize, case: &Case, fails: &mut dyn FnMut(&Case) -> bool) -> Case {
    let mut smallest = case.clone();
    let mut left = tries;
    loop {
        let mut tried = 0;
        let next = smaller(&smallest).take(left).find(|case| {
            tried += 1;
            fails(case)
        });
        left -= tried;
        match next {
            Some(next) => smallest = next,
            None => return smallest,
        }
    }
}

#[cfg(test)]
mod tests {
    use super::super::asked::Asked;
    use super::super::options::OptionTables;
    use super::super::trade::Trade;
    use super::*;
    use books::options::{decode, encode, OptionRow};
    use books::{Book, Row};

    /// A case whose first book has so many interest rows and commodity rows.
    fn case(interest: usize, commodity: usize) -> Case {
        let row = Row::default().with_group(9).with_kind(3).with_days(77);
        let row = row.with_issue(5).with_sides(1234, 0);
        let mut book = Book::default();
        book.classes[0] = vec![row; interest];
        book.classes[3] = vec![row.with_kind(0); commodity];
        Case {
            a: book.encode().unwrap(),
            b: vec![9; 40],
            table: vec![7; 36],
            group: 9,
            room: 500,
            net_room: 500,
            offset_room: 500,
            both_room: 500,
            shortest_room: 500,
            dearest: Asked {
                rows: 30,
                most: 77,
                room: 500,
            },
            options: OptionTables::of_case(1, 0),
            trade: Trade::default(),
            order: 1,
        }
    }

    #[test]
    fn only_what_matters_is_left() {
        let matters = |case: &Case| {
            let book = Book::decode(&case.a).unwrap_or_default();
            let large = book.classes[3].iter().filter(|row| row.long > 100);
            large.count() >= 2
        };
        let smallest = shrink(&case(30, 20), &mut |case| matters(case));
        let plain = Row::default().with_kind(1).with_sides(101, 0);
        let book = Book::decode(&smallest.a).unwrap();
        assert_eq!(book.rows(), 2);
        assert_eq!(book.classes[3], [plain; 2]);
        let left = (smallest.b.len(), smallest.group, smallest.room);
        let outputs = [smallest.net_room, smallest.offset_room];
        let more = [smallest.both_room, smallest.shortest_room];
        assert_eq!((left, outputs, more), ((0, 0, 0), [0; 2], [0; 2]));
        let Asked { rows, most, room } = smallest.dearest;
        assert_eq!([rows, most, room], [0; 3]);
        assert_eq!(smallest.options, OptionTables::default());
        assert_eq!(smallest.table, second::table());
    }

    /// Catches numbers of the dearest book that are not cut, or an output that is cut without them.
    #[test]
    fn what_is_asked_of_the_dearest_book_is_cut_too() {
        let short = |case: &Case| {
            let Asked { rows, most, room } = case.dearest;
            most > 9 && rows > 2 && room + 1 == 8 + 16 * rows
        };
        let mut whole = case(3, 3);
        whole.dearest.room = 7 + 16 * 30;
        let smallest = shrink(&whole, &mut |case| short(case));
        let Asked { rows, most, room } = smallest.dearest;
        assert_eq!([rows, most, room], [3, 10, 55]);
        assert!(smallest.a.is_empty());
    }

    /// Catches options that are not cut, or an output that is cut without them.
    #[test]
    fn option_tables_are_cut_too() {
        let short = |case: &Case| {
            let OptionTables { a, b, room } = &case.options;
            let options = decode(a).unwrap_or_default();
            let large = options.iter().filter(|option| option.vega > 5);
            let length = second::options_book(a).map_or(0, |book| book.len());
            large.count() >= 2 && length > 8 && room + 1 == length && b.len() > 2
        };
        let option = OptionRow {
            class: 4,
            group: 7,
            right: 3,
            amount: 900,
            delta: 77,
            vega: 99,
            ..OptionRow::default()
        };
        let mut whole = case(3, 3);
        whole.options = OptionTables {
            a: encode(&[option; 6]).unwrap(),
            b: encode(&[option; 9]).unwrap(),
            room: 7 + 16 * 6,
        };
        let smallest = shrink(&whole, &mut |case| short(case)).options;
        let options = decode(&smallest.a).unwrap();
        assert_eq!(
            options.iter().map(|one| one.vega).collect::<Vec<_>>(),
            [6, 6]
        );
        assert_eq!(options.iter().map(|one| one.delta).sum::<u16>(), 1);
        assert!(options.iter().all(|one| (one.class, one.amount) == (2, 1)));
        assert_eq!([smallest.b.len(), smallest.room], [20, 23]);
    }

    /// Catches a group that is kept because neither the call's nor the rows' can be changed
    /// alone.
    #[test]
    fn rows_and_call_come_to_group_0_together() {
        let own = |case: &Case| {
            let book = Book::decode(&case.a).unwrap_or_default();
            let group = |row: &Row| usize::from(row.group) == case.group;
            book.classes[3].iter().any(group)
        };
        let smallest = shrink(&case(2, 3), &mut |case| own(case));
        let book = Book::decode(&smallest.a).unwrap();
        assert_eq!((smallest.group, book.rows()), (0, 1));
        assert_eq!(book.classes[3][0].group, 0);
    }

    #[test]
    fn a_file_without_rows_is_cut_too() {
        let mut odd = case(3, 3);
        odd.a.push(1);
        let smallest = shrink(&odd, &mut |case| case.a.len() > 20 && case.a.contains(&3));
        assert_eq!(smallest.a.len(), 21);
        assert_eq!(smallest.a.iter().filter(|byte| **byte != 0).count(), 1);
    }

    #[test]
    fn a_full_book_that_cannot_be_cut_ends_the_search() {
        let full = case(4_000, 0);
        let mut tries = 0;
        let smallest = shrink_within(100, &full, &mut |case| {
            tries += 1;
            case.a == full.a
        });
        assert_eq!(smallest.a, full.a);
        assert_eq!(tries, 100);
    }
}
