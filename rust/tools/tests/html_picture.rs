//! A ladder as a picture of its own: the drawing of the page, and the one that the repository shows.

mod common;
mod page;

use common::{fails, packed, prints, sample};
use page::{parse, Node};
use std::fs;

/// What a drawing draws, without what is white.
fn drawn(svg: &Node) -> Vec<String> {
    let shown = |node: &&Node| format!("{} {:?} {}", node.name, node.attributes, node.text);
    let paper = |node: &&Node| {
        node.attributes
            .get("fill")
            .is_none_or(|fill| fill != "#ffffff")
    };
    svg.all()
        .iter()
        .filter(|node| paper(node))
        .map(shown)
        .collect()
}

/// Catches a picture that is another drawing than the page's, has no size, or no ground below all that
/// is drawn.
#[test]
fn a_picture_is_the_drawing_of_the_page() {
    let book = packed("steps", "picture");
    let page = parse(&prints(&["html", &book, "-o", "-"]));
    for (option, number) in [("currency", "7"), ("currency", "8"), ("commodity", "5")] {
        let words = ["ladder", &book, &format!("--{option}"), number, "--svg"];
        let picture = parse(&prints(&words));
        assert_eq!(picture.name, "svg");
        assert_eq!(picture.get("xmlns"), "http://www.w3.org/2000/svg");
        let section = page.section(&format!("{option}-{number}")).unwrap();
        assert_eq!(drawn(&picture), drawn(section.classed("drawing")[0]));
        let shapes = picture.children.iter();
        let mut shapes = shapes.filter(|part| part.name != "title" && part.name != "desc");
        let paper = shapes.next().unwrap();
        assert_eq!(
            (paper.name.as_str(), paper.get("fill")),
            ("rect", "#ffffff")
        );
        let sides = ["x", "y", "width", "height"].map(|side| paper.get(side));
        assert_eq!(picture.get("viewBox"), sides.join(" "));
        assert_eq!(
            sides[2..],
            ["width", "height"].map(|side| picture.get(side))
        );
    }
}

/// Catches a picture that is left as it was when drawings change.
#[test]
fn the_repository_s_picture_is_what_the_command_prints() {
    let path = concat!(
        env!("CARGO_MANIFEST_DIR"),
        "/../../docs/pictures/ladder.svg"
    );
    let book = packed("steps", "repository");
    let words = ["ladder", &book, "--currency", "8", "--svg"];
    assert_eq!(fs::read_to_string(path).unwrap(), prints(&words));
}

/// Catches a picture that tells of no table, or of the folder that it is in.
#[test]
fn another_table_is_told_by_its_name() {
    let book = packed("steps", "picture-table");
    let table = sample("steps").replace(".csv", ".table");
    let words = [
        "ladder",
        &book,
        "--currency",
        "8",
        "--svg",
        "--table",
        &table,
    ];
    let picture = parse(&prints(&words));
    let words = &picture.named("desc")[0].text;
    let note = " under steps.table, not document 01's table:\nweights ";
    assert!(words.contains(note), "{words}");
}

/// Catches options that are passed over.
#[test]
fn a_picture_is_of_one_whole_ladder() {
    let book = packed("steps", "one-picture");
    let told = fails(2, &["ladder", &book, "--svg"]);
    assert!(told.contains("--currency N or --commodity N"), "{told}");
    for other in ["--json", "--csv", "--hide-empty"] {
        fails(2, &["ladder", &book, "--currency", "8", "--svg", other]);
    }
    assert!(fails(1, &["ladder", &book, "--currency", "32", "--svg"]).contains("refused 10"));
}
