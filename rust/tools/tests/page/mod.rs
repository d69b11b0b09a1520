//! A page or a picture as a tree, read strictly: every element is closed in its order, every
//! attribute quoted, every character that means something escaped.
#![allow(dead_code)]

pub mod samples;

use std::collections::BTreeMap;

/// An element with its attributes, its own text and what it holds.
#[derive(Debug, Default)]
pub struct Node {
    pub name: String,
    pub attributes: BTreeMap<String, String>,
    pub text: String,
    pub children: Vec<Node>,
}

/// Text with its entities read; any other & is a fault.
fn plain(text: &str) -> String {
    let mut parts = text.split('&');
    let mut read = parts.next().unwrap().to_string();
    for part in parts {
        let (entity, rest) = part.split_once(';').expect("an entity ends");
        read.push_str(match entity {
            "amp" => "&",
            "lt" => "<",
            "gt" => ">",
            "quot" => "\"",
            "#39" => "'",
            other => panic!("entity {other}"),
        });
        read.push_str(rest);
    }
    read
}

/// The name and the attributes of a tag without its brackets.
fn opened(tag: &str) -> Node {
    let (name, mut rest) = tag.split_once(' ').unwrap_or((tag, ""));
    let mut node = Node {
        name: name.into(),
        ..Node::default()
    };
    while !rest.is_empty() {
        let (key, after) = rest.split_once("=\"").expect("a quoted attribute");
        let (value, after) = after.split_once('"').expect("its end");
        assert!(!value.contains('<'), "{tag}");
        let before = node.attributes.insert(key.trim().into(), plain(value));
        assert_eq!(before, None, "{key} twice in {tag}");
        rest = after.trim_start();
    }
    node
}

/// The tree of a page or a picture, without what stands before its first element.
pub fn parse(file: &str) -> Node {
    let begin = [
        "<!DOCTYPE html>\n",
        "<?xml version=\"1.0\" encoding=\"UTF-8\"?>\n",
    ];
    let text = begin.iter().find_map(|begin| file.strip_prefix(begin));
    let mut rest = text.expect("a page or a picture").trim_end();
    let mut open = vec![Node::default()];
    while let Some((before, after)) = rest.split_once('<') {
        open.last_mut().unwrap().text += &plain(before);
        let (tag, after) = after.split_once('>').expect("a tag ends");
        match (tag.strip_prefix('/'), tag.strip_suffix('/')) {
            (Some(name), _) => {
                let node = open.pop().unwrap();
                assert_eq!(node.name, name);
                open.last_mut()
                    .expect("no more is closed")
                    .children
                    .push(node);
            }
            (None, Some(tag)) => open.last_mut().unwrap().children.push(opened(tag)),
            (None, None) => open.push(opened(tag)),
        }
        rest = after;
    }
    assert_eq!((rest, open.len()), ("", 1), "something is left open");
    let mut all = open.pop().unwrap().children;
    assert_eq!(all.len(), 1);
    all.pop().unwrap()
}

/// Text with one space between words.
pub fn squeezed(text: &str) -> String {
    text.split_whitespace().collect::<Vec<_>>().join(" ")
}

/// Cells as a line of text.
pub fn joined(cells: &[String]) -> String {
    squeezed(&cells.join(" "))
}

impl Node {
    /// All elements below, in their order.
    pub fn all(&self) -> Vec<&Node> {
        let below = self.children.iter().flat_map(|child| {
            let mut nodes = vec![child];
            nodes.extend(child.all());
            nodes
        });
        below.collect()
    }

    /// All elements below of a name.
    pub fn named(&self, name: &str) -> Vec<&Node> {
        let nodes = self.all().into_iter();
        nodes.filter(|node| node.name == name).collect()
    }

    /// An attribute, which must be there.
    pub fn get(&self, name: &str) -> &str {
        let value = self.attributes.get(name);
        value.unwrap_or_else(|| panic!("{} without {name}", self.name))
    }

    /// An attribute as a number.
    pub fn number(&self, name: &str) -> f64 {
        self.get(name).parse().unwrap()
    }

    /// All elements below of a class.
    pub fn classed(&self, class: &str) -> Vec<&Node> {
        let has = |node: &&Node| {
            let classes = node.attributes.get("class");
            classes.is_some_and(|classes| classes.split(' ').any(|own| own == class))
        };
        self.all().into_iter().filter(has).collect()
    }

    /// The section with this name, where there is one.
    pub fn section(&self, id: &str) -> Option<&Node> {
        let mut sections = self.named("section").into_iter();
        sections.find(|section| section.get("id") == id)
    }

    /// The cells of the table of a class, line by line, without its titles.
    pub fn cells(&self, class: &str) -> Vec<Vec<String>> {
        let mut tables = self.classed(class).into_iter();
        let table = tables.find(|node| node.name == "table");
        let rows = table
            .unwrap_or_else(|| panic!("no table {class}"))
            .named("tr");
        let cells = |row: &&Node| -> Vec<String> {
            row.named("td")
                .iter()
                .map(|cell| cell.text.clone())
                .collect()
        };
        rows.iter()
            .map(cells)
            .filter(|cells| !cells.is_empty())
            .collect()
    }

    /// What an element stands for.
    pub fn title(&self) -> &str {
        let title = self.children.iter().find(|child| child.name == "title");
        &title.expect("a title").text
    }
}
