//! What the library answers, and its refusals, held to the band and to its own ladder.

use super::asked::Asked;
use crate::load::Given;
use crate::report::explain;
use crate::text::whole;
use market_risk::{interest_ladder, least_trade, InterestLadder, Refusal, Table};

/// What the library is to answer with: the ladder as it is, or the refusal of what is asked or of the book.
type Expected = Result<InterestLadder, Refusal>;

/// A refusal that is not of a row.
fn refusal(number: u64) -> Refusal {
    let (row, book) = (0, 0);
    Refusal { number, row, book }
}

/// A number as the library takes it; one that it has no room for is past every limit.
fn size(number: u64) -> usize {
    usize::try_from(number).unwrap_or(usize::MAX)
}

/// The ladder as it is, or why what is asked is refused: 10, then 21, then the book.
fn expected(bytes: &[u8], table: &Table, asked: &Asked) -> Expected {
    match (asked.group, asked.band) {
        (32.., _) => Err(refusal(10)),
        (_, 15..) => Err(refusal(21)),
        (group, _) => interest_ladder(bytes, table, size(group)),
    }
}

/// A refusal in words, or none.
fn words(refusal: Option<&Refusal>) -> String {
    refusal.map_or("accepted".into(), Refusal::to_string)
}

/// A refusal that is agreed on, explained.
fn explained(given: &Given, asked: &Asked, refusal: &Refusal) -> String {
    let why = explain(given, refusal);
    match refusal.number {
        10 => format!("{why}\ncurrency {}, and 31 is the last", whole(asked.group)),
        21 => format!("{why}\nband {}, and 14 is the last", whole(asked.band)),
        _ => why,
    }
}

/// The ladder as it is and the library's answer, or why there is none: what is asked is refused, or the call
/// and what is expected do not agree on that.
fn held(
    given: &Given,
    asked: &Asked,
    answer: Result<Option<u64>, Refusal>,
    expected: Expected,
) -> Result<(InterestLadder, Option<u64>), String> {
    match (answer, expected) {
        (Ok(amount), Ok(ladder)) => Ok((ladder, amount)),
        (Err(told), Err(right)) if told == right => Err(explained(given, asked, &told)),
        (answer, expected) => {
            let [told, right] = [answer.err(), expected.err()];
            let [told, right] = [words(told.as_ref()), words(right.as_ref())];
            Err(format!(
                "by the library: {told}\nby the currency, the band and its ladder: {right}"
            ))
        }
    }
}

/// What the library answers, with the ladder as it is; or why there is no answer.
pub fn ask(
    given: &Given,
    table: &Table,
    asked: &Asked,
) -> Result<(InterestLadder, Option<u64>), String> {
    let [group, band] = [asked.group, asked.band].map(size);
    let bytes = &given.bytes;
    let answer = least_trade(bytes, table, group, band, asked.side, asked.limit);
    held(given, asked, answer, expected(bytes, table, asked))
}

#[cfg(test)]
mod tests {
    use super::*;
    use market_risk::Side;

    fn asked(group: u64, band: u64) -> Asked {
        Asked {
            group,
            band,
            side: Side::Long,
            limit: 0,
        }
    }

    /// What is told of a book and what is asked.
    fn told(bytes: &[u8], group: u64, band: u64) -> Result<Option<u64>, String> {
        let given = Given::of_bytes(bytes.to_vec());
        let answer = ask(&given, &Table::amendment(), &asked(group, band));
        answer.map(|(_, amount)| amount)
    }

    /// Catches 21 before 10, and either after the book.
    #[test]
    fn refusals_are_told_in_their_order() {
        let (group, band) = ("32, and 31 is the last", "15, and 14 is the last");
        let first = format!("refused 10: ladder group over 31\ncurrency {group}");
        let then = format!("refused 21: band over 14 or side over 1\nband {band}");
        let book = "refused 1: fewer than 8 bytes\nthe file has 7 bytes; ";
        assert_eq!(told(&[0; 7], 32, 15), Err(first));
        assert_eq!(told(&[0; 7], 31, 15), Err(then));
        assert!(told(&[0; 7], 31, 14).unwrap_err().starts_with(book));
        assert_eq!(told(&[0; 8], 31, 14), Ok(Some(0)));
        let most = told(&[0; 8], 0, u64::MAX).unwrap_err();
        let end = "\nband 18,446,744,073,709,551,615, and 14 is the last";
        assert!(most.ends_with(end), "{most}");
    }

    /// Catches a refusal that is believed, or one that is missed.
    #[test]
    fn the_call_and_what_is_expected_must_agree() {
        let ladder = InterestLadder::default();
        let given = Given::of_bytes(vec![0; 8]);
        let hold = |answer, expected| held(&given, &asked(7, 5), answer, expected);
        assert_eq!(hold(Ok(None), Ok(ladder)), Ok((ladder, None)));
        let row = |row| Refusal { row, ..refusal(4) };
        for (answer, expected, by_call, by_ladder) in [
            (
                Err(refusal(21)),
                Ok(ladder),
                "refused 21: band over 14 or side over 1",
                "accepted",
            ),
            (
                Ok(Some(0)),
                Err(refusal(1)),
                "accepted",
                "refused 1: fewer than 8 bytes",
            ),
            (
                Err(row(1)),
                Err(row(0)),
                "refused 4 row 1: group over 31",
                "refused 4 row 0: group over 31",
            ),
        ] {
            let told = hold(answer, expected).unwrap_err();
            assert_eq!(
                told,
                format!(
                    "by the library: {by_call}\nby the currency, the band and its ladder: {by_ladder}"
                )
            );
        }
    }
}
