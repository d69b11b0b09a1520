//! The whole page: its head, what the book is, and the sections.

use super::figures::Figures;
use super::style::STYLE;
use super::{commodity, curve, interest, refusal, report, small_bank};
use crate::ladder::Ladder;
use crate::least_trade::Answered;
use crate::load::Given;
use crate::markup::{element, Element};
use crate::text::whole;
use books::Book;
use market_risk::Refusal;

/// What a page is about: the name of its book, and a table that is not document 01's in words.
pub struct Subject {
    pub name: String,
    pub note: String,
}

/// The classes as a page names them, in file order.
const CLASSES: [&str; 4] = ["interest", "equity", "foreign exchange", "commodity"];

/// How many rows a book has, and of which classes.
fn counted(book: &Book) -> String {
    let counts = book.classes.iter().map(Vec::len).zip(CLASSES);
    let counts = counts.filter(|(count, _)| *count > 0);
    let counts = counts.map(|(count, class)| format!("{} {class}", whole(count as u64)));
    let counts: Vec<String> = counts.collect();
    let all = match book.rows() {
        1 => "1 row".into(),
        rows => format!("{} rows", whole(rows as u64)),
    };
    match &counts[..] {
        [] => all,
        counts => format!("{all}: {}", counts.join(", ")),
    }
}

/// The place of a ladder on the page, and what it is called.
fn place(ladder: &Ladder) -> [String; 2] {
    let (name, group) = match ladder {
        Ladder::Currency(ladder) => ("currency", ladder.group),
        Ladder::Commodity(ladder) => ("commodity", ladder.group),
    };
    [format!("#{name}-{group}"), format!("{name} {group}")]
}

/// Where to find what on the page.
fn contents(figures: &Figures, trade: Option<&Answered>) -> Element {
    let trade = trade.map(|_| ["#trade", "the least trade"].map(String::from));
    let places = trade.into_iter().chain(figures.ladders.iter().map(place));
    let link = |[place, text]: [String; 2]| element("a").with("href", place).text(text);
    element("nav").all(places.map(link))
}

/// The section of a ladder.
fn section(ladder: &Ladder, figures: &Figures) -> Element {
    match ladder {
        Ladder::Currency(ladder) => {
            let specific = figures.report.specifics[ladder.group as usize];
            interest::section(ladder, specific)
        }
        Ladder::Commodity(ladder) => commodity::section(ladder),
    }
}

impl Subject {
    /// What a browser calls the page.
    fn title(&self) -> String {
        format!("Market risk of {}", self.name)
    }

    /// What stands above all sections.
    fn header(&self, rows: Option<String>) -> Element {
        let under = match self.note.is_empty() {
            true => "under document 01's table, the Amendment's of 1996",
            false => &self.note,
        };
        let lines = rows.into_iter().chain(under.lines().map(String::from));
        let lines = lines.filter(|line| !line.is_empty());
        element("header")
            .holding(element("h1").text(self.title()))
            .all(lines.map(|line| element("p").class("note").text(line)))
    }

    /// The page with these parts.
    fn whole(&self, parts: impl IntoIterator<Item = Element>) -> String {
        let wide = element("meta")
            .with("name", "viewport")
            .with("content", "width=device-width, initial-scale=1");
        let head = element("head")
            .holding(element("meta").with("charset", "utf-8"))
            .holding(wide)
            .holding(element("title").text(self.title()))
            .holding(element("style").text(STYLE));
        let body = element("body").all(parts);
        let page = element("html").with("lang", "en");
        format!("<!DOCTYPE html>\n{}", page.holding(head).holding(body))
    }

    /// The page of a refused book.
    pub fn refused(&self, given: &Given, refusal: &Refusal) -> String {
        self.whole([self.header(None), refusal::section(given, refusal)])
    }

    /// The page of an accepted book, with a least trade where one was asked for.
    pub fn accepted(&self, figures: &Figures, trade: Option<&Answered>) -> String {
        let header = self.header(Some(counted(&figures.book)));
        let header = header.holding(contents(figures, trade));
        let small = figures.small_bank.iter();
        let small = small.map(|(charged, lines)| small_bank::section(charged, lines));
        let ladders = figures.ladders.iter();
        let ladders = ladders.map(|ladder| section(ladder, figures));
        let parts = [header, report::section(figures)].into_iter().chain(small);
        self.whole(parts.chain(trade.map(curve::section)).chain(ladders))
    }
}
