//! The names of classes, kinds and fields.

use crate::CLASSES;

/// The classes by name, in file order.
pub const CLASS_NAMES: [&str; CLASSES] = ["interest", "equity", "fx", "commodity"];

/// The kind of floating-rate notes, in interest.
pub const FLOATING: u8 = 4;

/// The kinds that a class knows, by number and name.
pub fn kinds(class: usize) -> &'static [(u8, &'static str)] {
    match class {
        0 => &[
            (1, "government"),
            (2, "qualifying"),
            (3, "other"),
            (FLOATING, "floating"),
        ],
        1 => &[(1, "ordinary"), (2, "diversified"), (3, "index")],
        2 | 3 => &[(0, "none")],
        _ => &[],
    }
}

/// The class with this name in any case, 0 to 3.
pub fn class_of(name: &str) -> Option<usize> {
    let is = |known: &&str| known.eq_ignore_ascii_case(name);
    CLASS_NAMES.iter().position(is)
}

/// The name of a kind. A kind that the class does not know is its number.
pub fn kind_name(class: usize, kind: u8) -> String {
    let known = kinds(class).iter().find(|(number, _)| *number == kind);
    known.map_or_else(|| kind.to_string(), |(_, name)| name.to_string())
}

/// The kind with this name in any case. A plain number stands only for a kind that has no name.
pub fn kind_of(class: usize, name: &str) -> Option<u8> {
    let is = |known: &&str| known.eq_ignore_ascii_case(name);
    if let Some((number, _)) = kinds(class).iter().find(|(_, known)| is(known)) {
        return Some(*number);
    }
    let number = name.parse().ok()?;
    (kind_name(class, number) == name).then_some(number)
}

/// Whether rows of a class and kind are floating-rate notes: their days run to the next fixing,
/// and the place of the coupon holds the days to final maturity.
pub fn floating(class: usize, kind: u8) -> bool {
    class == 0 && kind == FLOATING
}

#[cfg(test)]
mod tests {
    use super::*;

    #[test]
    fn every_kind_has_one_spelling() {
        for class in 0..CLASSES {
            for kind in 0..=255 {
                assert_eq!(kind_of(class, &kind_name(class, kind)), Some(kind));
            }
        }
        assert_eq!(kind_of(0, "floating"), Some(4));
        assert_eq!(kind_of(0, "4"), None);
        assert_eq!(kind_of(1, "floating"), None);
        assert_eq!(kind_of(1, "4"), Some(4));
        assert_eq!(kind_of(0, "1"), None);
        assert_eq!(kind_of(0, "+7"), None);
        assert_eq!(kind_of(0, "index"), None);
        assert_eq!(kind_of(2, "none"), Some(0));
        assert_eq!(kind_of(2, "256"), None);
    }

    /// Catches kind 4 of another class that is taken for a floating-rate note.
    #[test]
    fn floating_rates_are_kind_4_of_interest() {
        for class in 0..CLASSES {
            for kind in 0..=255 {
                let named = kind_name(class, kind) == "floating";
                assert_eq!(floating(class, kind), named);
                assert_eq!(named, (class, kind) == (0, 4));
            }
        }
    }

    #[test]
    fn names_in_any_case() {
        assert_eq!(
            ["commodity", "Commodity", "FX"].map(class_of),
            [Some(3), Some(3), Some(2)]
        );
        assert_eq!(["commodities", "f x", ""].map(class_of), [None; 3]);
        assert_eq!(kind_of(0, "Floating"), Some(4));
        assert_eq!(kind_of(2, "NONE"), Some(0));
    }
}
