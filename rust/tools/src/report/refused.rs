//! How a refused book is told, whatever the form of the figures.

use super::explain;
use crate::cli::{no, Failure};
use crate::files::input;
use crate::forms::Form;
use crate::json::Json;
use crate::load::Given;
use market_risk::Refusal;
use std::path::Path;

/// A refusal as JSON: its row where it has one, and the line of the text that the row came from.
fn json(refusal: &Refusal, line: Option<usize>) -> Json {
    let row = refusal.names_row().then_some(("row", refusal.row.into()));
    let line = line.map(|line| ("line", (line as u64).into()));
    let mut fields = vec![("number", refusal.number.into())];
    fields.extend(row.into_iter().chain(line));
    fields.push(("reason", refusal.reason().into()));
    Json::Object(vec![("refused", Json::Object(fields))])
}

/// Explains a refused book and, where JSON is wanted, prints the refusal.
pub fn refused(form: Form, path: &Path, given: &Given, refusal: &Refusal) -> Failure {
    let failure = no(format!("{}: {}", input(path), explain(given, refusal)));
    form.failed(failure.with(json(refusal, given.line_of(refusal))))
}

#[cfg(test)]
mod tests {
    use super::*;

    /// Catches a row that is told where none is meant, and a line in its place.
    #[test]
    fn a_refusal_has_its_row_and_line_where_there_are_any() {
        let shown = |number, line| {
            let refusal = Refusal {
                number,
                row: 2,
                book: 0,
            };
            json(&refusal, line).to_string().replace(['\n', ' '], "")
        };
        let reason = r#""reason":"bothamountszeroorbothnonzero"}}"#;
        let row = format!(r#"{{"refused":{{"number":8,"row":2,{reason}"#);
        assert_eq!(shown(8, None), row);
        let line = format!(r#"{{"refused":{{"number":8,"row":2,"line":4,{reason}"#);
        assert_eq!(shown(8, Some(4)), line);
        let none = r#"{"refused":{"number":1,"reason":"fewerthan8bytes"}}"#;
        assert_eq!(shown(1, None), none);
    }
}
