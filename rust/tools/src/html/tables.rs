//! Tables of a page.

use crate::lines::Line;
use crate::markup::{element, Element};

/// A cell of text.
pub fn cell(text: impl AsRef<str>) -> Element {
    element("td").text(text)
}

/// A line of cells of text.
pub fn row<T: AsRef<str>>(cells: impl IntoIterator<Item = T>) -> Element {
    element("tr").all(cells.into_iter().map(cell))
}

/// A table of this class, with titles above its lines.
pub fn table(class: &str, titles: &[&str], rows: impl IntoIterator<Item = Element>) -> Element {
    let titles = titles.iter().map(|title| element("th").text(title));
    plain(class, [element("tr").all(titles)].into_iter().chain(rows))
}

/// A table without titles.
pub fn plain(class: &str, rows: impl IntoIterator<Item = Element>) -> Element {
    element("table").class(class).all(rows)
}

/// The lines by which figures add up.
pub fn lines(lines: &[Line]) -> Element {
    plain("lines", lines.iter().map(|line| row(line.cells())))
}

/// A part of a section, with its title.
pub fn part(title: &str, inside: Element) -> [Element; 2] {
    [element("h3").text(title), inside]
}
