//! What the library answers to options: of a whole table, and of each underlying alone.

use super::deltas;
use super::fault::{fault, Fault};
use super::greeks::{by_underlying, Greeks, Underlying};
use crate::load::Given;
use books::options::names::class_name;
use books::options::{decode, encode, OptionRow};
use books::ROW_BYTES;
use market_risk::{Options, Refusal};

/// The library's book of some options, and what it tells of them.
#[derive(Clone, Debug, PartialEq, Eq)]
pub struct Answer {
    pub file: Vec<u8>,
    pub told: Options,
}

impl Answer {
    /// Gamma and vega of the three classes.
    pub fn greeks(&self) -> [Greeks; 3] {
        let of = |gamma: u64, vega: u64| Greeks {
            gamma: gamma.into(),
            vega: vega.into(),
        };
        let (gamma, vega) = (&self.told.gamma, &self.told.vega);
        [
            of(gamma.equity, vega.equity),
            of(gamma.exchange, vega.exchange),
            of(gamma.commodity, vega.commodity),
        ]
    }
}

/// What the library answers of one underlying alone.
pub type Alone = (Underlying, Answer);

/// An underlying in words.
pub fn name((class, group): &Underlying) -> String {
    format!("{} {group}", class_name(*class))
}

/// What the library answers to a table. The output has room for the book of the deltas and no more.
fn ask(table: &[u8]) -> Result<Answer, Refusal> {
    let options = decode(table).unwrap_or_default();
    let mut file = vec![0; 8 + ROW_BYTES * deltas::book(&options).rows()];
    let told = market_risk::options(table, &mut file)?;
    Ok(Answer { file, told })
}

/// An answer to a table that is held to the limits that are looked at here, or why there is none: the
/// table is refused, or the library and its limits do not agree on that.
fn held(
    given: &Given,
    answer: Result<Answer, Refusal>,
    fault: Option<Fault>,
) -> Result<Answer, String> {
    let limits = "by its limits the table is";
    match (answer, fault) {
        (Ok(answer), None) => Ok(answer),
        (Err(told), Some(fault)) if (told.number, told.row) == (fault.number, fault.row) => {
            Err(format!("{}\n{}", given.refused(&told), fault.words))
        }
        (Err(told), None) => Err(format!("{told}\n{limits} accepted")),
        (Err(told), Some(fault)) => {
            let words = &fault.words;
            Err(format!("{told}\n{limits} refused with {fault}: {words}"))
        }
        (Ok(_), Some(fault)) => {
            let words = &fault.words;
            Err(format!(
                "the library takes it, {limits} refused with {fault}: {words}"
            ))
        }
    }
}

/// What the library answers to a table, or why there is no answer.
pub fn of_table(given: &Given) -> Result<Answer, String> {
    held(given, ask(&given.bytes), fault(&given.bytes))
}

/// What the library answers to the options of each underlying alone.
pub fn of_underlyings(options: &[OptionRow]) -> Result<Vec<Alone>, String> {
    let ask_alone = |(underlying, own): (Underlying, Vec<_>)| {
        let table = encode(&own).expect("no more options than before");
        match ask(&table) {
            Ok(answer) => Ok((underlying, answer)),
            Err(why) => Err(format!("{} alone is {why}", name(&underlying))),
        }
    };
    let groups = by_underlying(options).into_iter();
    groups.map(ask_alone).collect()
}

#[cfg(test)]
mod tests {
    use super::*;
    use crate::load::option_table;

    /// Equity 3 bought and sold, and commodity 4 of delta 0 between them.
    const TEXT: &str = "class,group,right,kind,amount,delta,gamma,vega,volatility,days
equity,3,bought call,ordinary,1000,5001,10,2,2000,0
commodity,4,sold put,none,1000,0,10,1,2000,30
equity,3,sold call,index,2000,5000,10,1,2000,0
";

    fn given() -> Given {
        option_table(TEXT).unwrap()
    }

    fn refusal(number: u64, row: u64) -> Refusal {
        let book = 0;
        Refusal { number, row, book }
    }

    /// By hand: long 501 and short 1,000; 1,000 x 10 x 64 / 2 sold over bought, 1,000 x 10 x 225 / 2;
    /// 1 x 2,000 x 2,500 of each.
    #[test]
    fn answers_are_of_the_table_and_of_each_underlying() {
        let whole = of_table(&given()).unwrap();
        assert_eq!(whole.file.len(), 40);
        let of = |gamma, vega| Greeks { gamma, vega };
        let none = of(0, 0);
        let (share, stock) = (of(320_000, 5_000_000), of(1_125_000, 5_000_000));
        assert_eq!(whole.greeks(), [share, none, stock]);
        let options = decode(&given().bytes).unwrap();
        let alone = of_underlyings(&options).unwrap();
        let names: Vec<String> = alone.iter().map(|(of, _)| name(of)).collect();
        assert_eq!(names, ["equity 3", "commodity 4"]);
        let lengths = [&alone[0], &alone[1]].map(|(_, answer)| answer.file.len());
        assert_eq!(lengths, [40, 8]);
        assert_eq!(alone[0].1.greeks(), [share, none, none]);
        assert_eq!(alone[1].1.greeks(), [none, none, stock]);
        assert_eq!(of_underlyings(&[]), Ok(vec![]));
    }

    #[test]
    fn a_bad_option_alone_is_told_with_its_underlying() {
        let mut options = decode(&given().bytes).unwrap();
        options[2].amount = 0;
        let told = of_underlyings(&options).unwrap_err();
        let why = refusal(17, 1);
        assert_eq!(told, format!("equity 3 alone is {why}"));
    }

    #[test]
    fn a_refused_table_is_told_in_words() {
        let mut given = Given::of_bytes(given().bytes);
        given.bytes[2 + 18 + 3] = 1;
        let told = of_table(&given).unwrap_err();
        let begin = format!("{}\noption: class commodity, group 4, ", refusal(17, 1));
        assert!(told.starts_with(&begin), "{told}");
        assert!(told.ends_with(", days 30; kind may be none (0)"), "{told}");
    }

    /// Catches a refusal that is believed, or one that is missed, though the limits are others.
    #[test]
    fn the_library_and_the_limits_must_agree() {
        let told = |answer: Option<Refusal>, number: u64, row: u64| {
            let right = of_table(&given()).unwrap();
            let words = "in words".into();
            let fault = (number > 0).then_some(Fault { number, row, words });
            held(&given(), answer.map_or(Ok(right), Err), fault)
        };
        assert_eq!(told(None, 0, 0), of_table(&given()));
        let agreed = told(Some(refusal(17, 2)), 17, 2).unwrap_err();
        assert!(agreed.starts_with("line 4: refused 17: ") && agreed.ends_with("\nin words"));
        for (answer, number, row, limits) in [
            (refusal(17, 2), 0, 0, "accepted"),
            (refusal(12, 0), 0, 0, "accepted"),
            (refusal(17, 2), 17, 1, "refused with 17 in row 1: in words"),
            (refusal(17, 0), 16, 0, "refused with 16: in words"),
        ] {
            let told = told(Some(answer), number, row).unwrap_err();
            assert_eq!(
                told,
                format!("{answer}\nby its limits the table is {limits}")
            );
        }
        assert_eq!(
            told(None, 17, 2).unwrap_err(),
            "the library takes it, by its limits the table is refused with 17 in row 2: in words"
        );
    }
}
