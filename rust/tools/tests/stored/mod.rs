//! The texts in samples/expected: what each is printed of, and its lines calculated again.
#![allow(dead_code)]

use crate::again;
use crate::common::{packed, prints_in, sample};
use books::options::OptionRow;
use books::{csv, options, tables, Book};
use std::collections::BTreeSet;
use std::fs;

/// The folder of the samples.
pub fn samples() -> String {
    format!("{}/../../samples", env!("CARGO_MANIFEST_DIR"))
}

/// The names of the files of a folder that end so, without their end.
pub fn names(folder: &str, end: &str) -> BTreeSet<String> {
    let files = fs::read_dir(folder).unwrap();
    let files = files.map(|file| file.unwrap().file_name().into_string().unwrap());
    files
        .filter_map(|name| Some(name.strip_suffix(end)?.to_string()))
        .collect()
}

/// A sample as rows.
fn rows(name: &str) -> Book {
    let text = fs::read_to_string(sample(name)).unwrap();
    csv::parse(&text).unwrap().book
}

/// The options of a sample, where it is an option table.
fn options_of(name: &str) -> Option<Vec<OptionRow>> {
    let text = fs::read_to_string(sample(name)).unwrap();
    let is_table = text.starts_with(options::csv::HEADER);
    is_table.then(|| options::csv::parse(&text).unwrap().options)
}

/// What is printed of a sample: its report, this with the charges of the currencies, the
/// charges of a small bank, the ladder of one group, or a least trade; of an option table what options cost.
#[derive(Clone, Copy)]
pub enum Print {
    Options,
    Report,
    Currencies,
    SmallBank,
    Currency(usize),
    Commodity(usize),
    LeastTrade,
}

/// The sample with a least trade, and what is asked of it.
const TRADED: &str = "zones";
const TRADE: again::Short = again::Short {
    group: 7,
    days: 900,
    coupon: 800,
    limit: 420_000,
};

/// All prints of a sample: the report, the currencies where there are several, the charges of a
/// small bank where it could be one's book, and the ladder of every group that it has, or of
/// group 0 if it has no rows at all.
fn prints_of(book: &Book) -> Vec<Print> {
    let groups = |class: usize| {
        let groups: BTreeSet<usize> = book.classes[class]
            .iter()
            .map(|row| usize::from(row.group))
            .collect();
        match book.rows() {
            0 => BTreeSet::from([0]),
            _ => groups,
        }
    };
    let mut all = vec![Print::Report];
    all.extend((groups(0).len() > 1).then_some(Print::Currencies));
    let small = book.classes[..2].iter().all(Vec::is_empty);
    all.extend(small.then_some(Print::SmallBank));
    all.extend(groups(0).into_iter().map(Print::Currency));
    all.extend(groups(3).into_iter().map(Print::Commodity));
    all
}

/// A stored text: of which sample, its rows, the bytes of the table that it is charged under,
/// what is printed of it.
pub struct Stored {
    sample: String,
    pub book: Book,
    table: Option<Vec<u8>>,
    pub print: Print,
}

impl Stored {
    pub fn name(&self) -> String {
        let table = if self.table.is_some() { ".table" } else { "" };
        let print = match self.print {
            Print::Options => "options".into(),
            Print::Report => "report".into(),
            Print::Currencies => "currencies".into(),
            Print::SmallBank => "small-bank".into(),
            Print::Currency(group) => format!("currency-{group}"),
            Print::Commodity(group) => format!("commodity-{group}"),
            Print::LeastTrade => "least-trade".into(),
        };
        format!("{}{table}.{print}", self.sample)
    }

    pub fn text(&self) -> String {
        let path = format!("{}/expected/{}.txt", samples(), self.name());
        fs::read_to_string(&path).unwrap_or_else(|_| panic!("{path} is missing"))
    }

    /// What the command prints now.
    pub fn printed(&self) -> String {
        self.printed_with(&[])
    }

    /// What it prints with more options.
    pub fn printed_with(&self, more: &[&str]) -> String {
        let file = match self.print {
            Print::Options => format!("{}.csv", self.sample),
            _ => packed(&self.sample, &self.name()),
        };
        let group = match self.print {
            Print::Currency(group) | Print::Commodity(group) => group.to_string(),
            _ => String::new(),
        };
        let mut words = match self.print {
            Print::Options => vec!["options", &file],
            Print::Report => vec!["report", &file],
            Print::Currencies => vec!["report", &file, "--currencies"],
            Print::SmallBank => vec!["small-bank", &file],
            Print::Currency(_) => vec!["ladder", &file, "--currency", &group],
            Print::Commodity(_) => vec!["ladder", &file, "--commodity", &group],
            Print::LeastTrade => vec!["least-trade", &file],
        };
        let asked = TRADE.options();
        if let Print::LeastTrade = self.print {
            words.extend(asked.split(' '));
        }
        let table = format!("{}.table", self.sample);
        if self.table.is_some() {
            words.extend(["--table", &table]);
        }
        words.extend(more);
        prints_in(&samples(), &words)
    }

    /// The bytes of the table that it is charged under.
    pub fn table(&self) -> Vec<u8> {
        let table = self.table.clone();
        table.unwrap_or_else(|| second::table().to_vec())
    }

    /// The lines of it, calculated again.
    pub fn again(&self) -> Vec<String> {
        let table = &self.table();
        let name = format!("{}.table", self.sample);
        let note = self.table.as_ref().map(|table| again::note(&name, table));
        let figures = match self.print {
            Print::Options => again::options(&options_of(&self.sample).unwrap()),
            Print::Report => again::report(&self.book.encode().unwrap(), table),
            Print::Currencies => again::currencies(&self.book, table),
            Print::SmallBank => again::small_bank(&self.book),
            Print::Currency(group) => again::interest(&self.book, table, group),
            Print::Commodity(group) => again::commodity(&self.book, group),
            Print::LeastTrade => again::least_trade(&self.book, table, &TRADE),
        };
        [note.unwrap_or_default(), figures].concat()
    }
}

/// The bytes of the table beside a sample, if there is one.
fn table_of(sample: &str) -> Option<Vec<u8>> {
    let text = fs::read_to_string(format!("{}/{sample}.table", samples())).ok()?;
    Some(tables::text::parse(&text).unwrap().encode())
}

/// What is printed of an option table.
fn of_options(sample: String) -> Stored {
    Stored {
        sample,
        book: Book::default(),
        table: None,
        print: Print::Options,
    }
}

/// Every print of every sample, and once more under its own table, which no commodity has a
/// part in.
pub fn all() -> Vec<Stored> {
    let mut all = Vec::new();
    for sample in names(&samples(), ".csv") {
        if options_of(&sample).is_some() {
            all.push(of_options(sample));
            continue;
        }
        let book = rows(&sample);
        let stored = |table: Option<Vec<u8>>, print| Stored {
            sample: sample.clone(),
            book: book.clone(),
            table,
            print,
        };
        all.extend(
            prints_of(&book)
                .into_iter()
                .map(|print| stored(None, print)),
        );
        all.extend((sample == TRADED).then(|| stored(None, Print::LeastTrade)));
        if let Some(table) = table_of(&sample) {
            let prints = prints_of(&book).into_iter();
            let prints = prints.filter(|print| !matches!(print, Print::Commodity(_)));
            all.extend(prints.map(|print| stored(Some(table.clone()), print)));
        }
    }
    all
}
