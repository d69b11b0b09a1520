//! Elements of HTML and SVG, written well-formed: text and attributes are escaped, and every
//! element is closed.

use std::fmt;

/// The elements of HTML that hold nothing, which alone may be closed at once.
const VOID: [&str; 1] = ["meta"];

/// The elements after which a line ends, so that a page can be read and compared by lines.
const LINES: [&str; 15] = [
    "html", "head", "body", "style", "header", "section", "nav", "h1", "h2", "h3", "p", "table",
    "tr", "svg", "g",
];

/// Text with the characters that mean something to a browser written otherwise. What no page may
/// hold, control characters, is left out.
fn escaped(text: &str) -> String {
    let mut written = String::with_capacity(text.len());
    for character in text.chars() {
        match character {
            '&' => written.push_str("&amp;"),
            '<' => written.push_str("&lt;"),
            '>' => written.push_str("&gt;"),
            '"' => written.push_str("&quot;"),
            '\'' => written.push_str("&#39;"),
            '\n' | '\t' => written.push(character),
            '\u{fffe}' | '\u{ffff}' => (),
            _ if character.is_control() => (),
            _ => written.push(character),
        }
    }
    written
}

/// An element: its name, attributes, and what it holds.
#[derive(Clone, Debug, PartialEq, Eq)]
pub struct Element {
    name: &'static str,
    attributes: String,
    inside: String,
}

/// An element that holds nothing yet.
pub fn element(name: &'static str) -> Element {
    Element {
        name,
        attributes: String::new(),
        inside: String::new(),
    }
}

impl Element {
    /// The element with an attribute more.
    pub fn with(mut self, name: &str, value: impl fmt::Display) -> Element {
        let value = escaped(&value.to_string());
        self.attributes.push_str(&format!(" {name}=\"{value}\""));
        self
    }

    /// The element with a class, as its style names it.
    pub fn class(self, name: &str) -> Element {
        self.with("class", name)
    }

    /// The element with text at its end.
    pub fn text(mut self, text: impl AsRef<str>) -> Element {
        self.inside.push_str(&escaped(text.as_ref()));
        self
    }

    /// The element with another at its end.
    pub fn holding(mut self, other: Element) -> Element {
        self.inside.push_str(&other.to_string());
        self
    }

    /// The element with others at its end, in order.
    pub fn all(self, others: impl IntoIterator<Item = Element>) -> Element {
        others.into_iter().fold(self, Element::holding)
    }
}

impl fmt::Display for Element {
    fn fmt(&self, out: &mut fmt::Formatter) -> fmt::Result {
        let (name, attributes, inside) = (self.name, &self.attributes, &self.inside);
        let end = if LINES.contains(&name) { "\n" } else { "" };
        match VOID.contains(&name) {
            true => write!(out, "<{name}{attributes}/>"),
            false => write!(out, "<{name}{attributes}>{inside}</{name}>{end}"),
        }
    }
}

#[cfg(test)]
mod tests {
    use super::*;

    /// Catches text or a value that could open an element, close an attribute or begin an entity.
    #[test]
    fn text_and_attributes_are_escaped() {
        let odd = "a<b> & \"c\" 'd'\u{0}\u{1b}";
        let shown = element("p").with("title", odd).text(odd).to_string();
        let safe = "a&lt;b&gt; &amp; &quot;c&quot; &#39;d&#39;";
        assert_eq!(shown, format!("<p title=\"{safe}\">{safe}</p>\n"));
    }

    /// Catches an element of HTML that is closed at once, which a browser leaves open.
    #[test]
    fn elements_are_closed_as_browsers_read_them() {
        let row = element("tr").all([element("td"), element("td").text("1")]);
        assert_eq!(row.to_string(), "<tr><td></td><td>1</td></tr>\n");
        let meta = element("meta").with("charset", "utf-8").to_string();
        assert_eq!(meta, "<meta charset=\"utf-8\"/>");
    }
}
