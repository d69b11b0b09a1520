//! The names of an option's class and right, and of its kind by the class.

use crate::names::{kind_name as name_in, kind_of as kind_in, CLASS_NAMES};
use crate::CLASSES;

/// The rights by name, in the order of their numbers.
pub const RIGHT_NAMES: [&str; 4] = ["bought call", "bought put", "sold call", "sold put"];

/// The class of a book, 1 to 3, that the underlyings of an option class are of. There is none for a
/// number that is no class of options.
pub fn underlying(class: u8) -> Option<usize> {
    (2..=4).contains(&class).then(|| usize::from(class) - 1)
}

/// The names of the classes that options may be of.
pub fn class_names() -> &'static [&'static str] {
    &CLASS_NAMES[1..]
}

/// The name of a class. A number that is none of options is itself.
pub fn class_name(class: u8) -> String {
    underlying(class).map_or_else(|| class.to_string(), |own| CLASS_NAMES[own].into())
}

/// The class with this name in any case. A plain number stands only for a class that has no name.
pub fn class_of(name: &str) -> Option<u8> {
    let is = |known: &&str| known.eq_ignore_ascii_case(name);
    let known = class_names().iter().position(is);
    known
        .map(|at| at as u8 + 2)
        .or_else(|| plain(name, class_name))
}

/// The name of a right. A number that is none is itself.
pub fn right_name(right: u8) -> String {
    let known = RIGHT_NAMES.get(usize::from(right));
    known.map_or_else(|| right.to_string(), |name| name.to_string())
}

/// The right with this name in any case. A plain number stands only for a right that has no name.
pub fn right_of(name: &str) -> Option<u8> {
    let is = |known: &&str| known.eq_ignore_ascii_case(name);
    let known = RIGHT_NAMES.iter().position(is);
    known.map(|at| at as u8).or_else(|| plain(name, right_name))
}

/// The name of a kind of an option class, as in a book.
pub fn kind_name(class: u8, kind: u8) -> String {
    name_in(underlying(class).unwrap_or(CLASSES), kind)
}

/// The kind with this name, as in a book.
pub fn kind_of(class: u8, name: &str) -> Option<u8> {
    kind_in(underlying(class).unwrap_or(CLASSES), name)
}

/// A plain number that has no other name.
fn plain(name: &str, name_of: impl Fn(u8) -> String) -> Option<u8> {
    let number = name.parse().ok()?;
    (name_of(number) == name).then_some(number)
}

#[cfg(test)]
mod tests {
    use super::*;

    /// Catches a class, right or kind that has another number in a table than it should.
    #[test]
    fn names_have_the_numbers_of_the_bytes() {
        let classes = ["equity", "fx", "commodity"].map(class_of);
        assert_eq!(classes, [Some(2), Some(3), Some(4)]);
        let rights = ["bought call", "bought put", "sold call", "sold put"].map(right_of);
        assert_eq!(rights, [Some(0), Some(1), Some(2), Some(3)]);
        let shares = ["ordinary", "diversified", "index"].map(|name| kind_of(2, name));
        assert_eq!(shares, [Some(1), Some(2), Some(3)]);
        assert_eq!([3, 4].map(|class| kind_of(class, "none")), [Some(0); 2]);
        assert_eq!([2, 3, 4].map(underlying), [Some(1), Some(2), Some(3)]);
        assert_eq!([0, 1, 5, 255].map(underlying), [None; 4]);
    }

    #[test]
    fn every_number_has_one_spelling() {
        for number in 0..=255 {
            assert_eq!(class_of(&class_name(number)), Some(number));
            assert_eq!(right_of(&right_name(number)), Some(number));
            for class in [0, 1, 2, 3, 4, 5, 255] {
                assert_eq!(kind_of(class, &kind_name(class, number)), Some(number));
            }
        }
        assert_eq!(
            ["2", "interest", "256", "Interest"].map(class_of),
            [None; 4]
        );
        assert_eq!(class_of("Equity"), Some(2));
        assert_eq!(right_of("Bought Put"), Some(1));
        assert_eq!(["0", "call", "+4", "256"].map(right_of), [None; 4]);
        assert_eq!(kind_of(1, "government"), None);
        assert_eq!(kind_of(3, "0"), None);
    }
}
