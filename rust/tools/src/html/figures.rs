//! All figures of a page. Each is the library's, and is held to the book before anything is written.

use super::others::{others, Other};
use crate::ladder::{drawn, Ladder, Wanted, Why};
use crate::lines::Line;
use crate::load::Given;
use crate::report::doubt;
use crate::small_bank::checked;
use books::Book;
use market_risk::{small_bank, Refusal, Report, SmallBank, Table};

/// The figures of an accepted book, among which no difference was found.
pub struct Figures {
    pub book: Book,
    pub report: Report,
    /// Of the currencies and the commodities that have rows.
    pub ladders: Vec<Ladder>,
    /// Of a book without interest and equity rows, and the lines by which its charges add up.
    pub small_bank: Option<(SmallBank, Vec<Line>)>,
    /// What the book would cost netted or offset.
    pub others: Vec<Other>,
}

/// A book that one call charges and another refuses.
fn unlike(refusal: Refusal) -> String {
    format!("the library charges the book, and another call for it is {refusal}")
}

/// The ladders of an accepted book.
fn ladders(bytes: &[u8], table: &Table) -> Result<Vec<Ladder>, String> {
    drawn(bytes, &Wanted::All, table).map_err(|why| match why {
        Why::Refused(refusal) => unlike(refusal),
        Why::Differs(why) => why,
    })
}

/// The charges of a small bank, of a book that may be one.
fn small(bytes: &[u8], book: &Book) -> Result<Option<(SmallBank, Vec<Line>)>, String> {
    if !book.classes[0].is_empty() || !book.classes[1].is_empty() {
        return Ok(None);
    }
    let charged = small_bank(bytes).map_err(unlike)?;
    let lines = checked(book, &charged)?;
    Ok(Some((charged, lines)))
}

/// Ladders that do not cost what the report tells.
fn unequal(name: &str, ladders: u64, report: u64) -> Option<String> {
    let differ = ladders != report;
    differ.then(|| format!("{name}: by the ladders {ladders} mils, by the report {report}"))
}

impl Figures {
    /// The figures of a book under a table, or why there are none.
    pub fn new(given: &Given, table: &Table) -> Result<Figures, Why> {
        let report = market_risk::charge(&given.bytes, table).map_err(Why::Refused)?;
        Figures::of(given, table, report).map_err(Why::Differs)
    }

    /// The figures of a book with this report, or what is not so of them.
    fn of(given: &Given, table: &Table, report: Report) -> Result<Figures, String> {
        let bytes = &given.bytes[..];
        let book = Book::decode(bytes).unwrap_or_default();
        doubt(&book, &report).map_or(Ok(()), Err)?;
        let figures = Figures {
            ladders: ladders(bytes, table)?,
            small_bank: small(bytes, &book)?,
            others: others(given, table)?,
            report,
            book,
        };
        figures.unequal().map_or(Ok(figures), Err)
    }

    /// A currency, or the commodities, whose ladders do not cost what the report tells.
    fn unequal(&self) -> Option<String> {
        let mut commodities = 0;
        for ladder in &self.ladders {
            match ladder {
                Ladder::Currency(ladder) => {
                    let name = format!("currency {}", ladder.group);
                    let report = self.report.generals[ladder.group as usize];
                    let told = unequal(&name, ladder.figures.charge, report);
                    if told.is_some() {
                        return told;
                    }
                }
                Ladder::Commodity(ladder) => commodities += ladder.figures.charge,
            }
        }
        unequal("commodities", commodities, self.report.commodity)
    }
}

#[cfg(test)]
mod tests {
    use super::*;
    use books::Row;

    /// Catches a report whose currencies are exchanged, which all sums leave as it is, and one whose
    /// commodities cost another sum than their ladders: 7 of stock at 15%, and at 0.6% in six steps.
    #[test]
    fn ladders_are_held_to_the_report() {
        let bond = Row::default().with_kind(1).with_days(270).with_coupon(800);
        let mut book = Book::default();
        book.classes[0] = vec![
            bond.with_group(3).with_sides(1, 0),
            bond.with_group(4).with_sides(2, 0),
        ];
        book.classes[3] = vec![Row::default().with_group(5).with_sides(0, 7)];
        let given = Given::of_bytes(book.encode().unwrap());
        let table = Table::amendment();
        let right = market_risk::charge(&given.bytes, &table).unwrap();
        let told = |change: fn(&mut Report)| {
            let mut report = right;
            change(&mut report);
            Figures::of(&given, &table, report).err()
        };
        assert_eq!(told(|_| ()), None);
        let exchanged = told(|report| report.generals.swap(3, 4)).unwrap();
        let why = "currency 3: by the ladders 7000 mils, by the report 14000";
        assert_eq!(exchanged, why);
        let moved = told(|report| {
            report.commodity += 1;
            report.total += 1;
        });
        let why = "commodities: by the ladders 1302000 mils, by the report 1302001";
        assert_eq!(moved.as_deref(), Some(why));
    }
}
