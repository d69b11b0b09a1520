//! What the fields of an option may be, and an option that has others, in words.

use crate::text::whole;
use books::names::kinds;
use books::options::names::{class_name, class_names, kind_name, right_name};
use books::options::names::{underlying, RIGHT_NAMES};
use books::options::OptionRow;

/// The fields of an option in words.
fn fields(option: &OptionRow) -> String {
    let fields = [
        ("class", class_name(option.class)),
        ("group", option.group.to_string()),
        ("right", right_name(option.right)),
        ("kind", kind_name(option.class, option.kind)),
        ("amount", whole(option.amount)),
        ("delta", whole(option.delta)),
        ("gamma", whole(option.gamma)),
        ("vega", whole(option.vega)),
        ("volatility", whole(option.volatility)),
        ("days", whole(option.days)),
    ];
    let fields = fields.map(|(name, value)| format!("{name} {value}"));
    format!("option: {}", fields.join(", "))
}

/// What a number may be, where it is otherwise.
fn range(name: &str, value: impl Into<u32>, least: u32, most: u32) -> Option<String> {
    let inside = (least..=most).contains(&value.into());
    (!inside).then(|| match most {
        0 => format!("{name} must be 0"),
        _ => format!("{name} may be {least} to {}", whole(most)),
    })
}

/// What a field may be that has names from a number on, where it is otherwise.
fn choice(name: &str, value: u8, first: u8, names: &[&str]) -> Option<String> {
    let numbered = (first..).zip(names);
    let known = numbered.clone().any(|(number, _)| number == value);
    let choices = numbered.map(|(number, name)| format!("{name} ({number})"));
    (!known).then(|| format!("{name} may be {}", choices.collect::<Vec<_>>().join(", ")))
}

/// What kind and days may be, where one of them is otherwise. They are held to the class of the
/// underlying; an option that has none is refused for it.
fn of_class(option: &OptionRow) -> [Option<String>; 2] {
    let Some(class) = underlying(option.class) else {
        return [None, None];
    };
    let (least, _) = kinds(class)[0];
    let names: Vec<&str> = kinds(class).iter().map(|(_, name)| *name).collect();
    let most = if class == 3 { 36_000 } else { 0 };
    [
        choice("kind", option.kind, least, &names),
        range("days", option.days, 0, most),
    ]
}

/// What each field may be that is out of its range. Gamma, vega and volatility may be anything.
fn broken(option: &OptionRow) -> Vec<String> {
    let [kind, days] = of_class(option);
    let fields = [
        choice("class", option.class, 2, class_names()),
        range("group", option.group, 0, 31),
        choice("right", option.right, 0, &RIGHT_NAMES),
        kind,
        range("amount", option.amount, 1, 1_000_000),
        range("delta", option.delta, 0, 10_000),
        days,
    ];
    fields.into_iter().flatten().collect()
}

/// An option that has fields out of their range, in words: all its fields, and what those may be.
pub fn told(option: &OptionRow) -> Option<String> {
    let broken = broken(option);
    (!broken.is_empty()).then(|| format!("{}; {}", fields(option), broken.join("; ")))
}

#[cfg(test)]
mod tests {
    use super::*;

    /// An option that is accepted in its class.
    fn clean(class: u8) -> OptionRow {
        OptionRow {
            class,
            group: 3,
            right: 1,
            kind: u8::from(class == 2),
            amount: 1_500,
            delta: 5_000,
            gamma: 60_000,
            vega: 1_234,
            volatility: u16::MAX,
            days: 0,
        }
    }

    /// What is told of an option after a change.
    fn told_of(class: u8, change: impl Fn(&mut OptionRow)) -> String {
        let mut bad = clean(class);
        change(&mut bad);
        told(&bad).unwrap()
    }

    /// What the fields may be that are told of.
    fn may(class: u8, change: impl Fn(&mut OptionRow)) -> String {
        let told = told_of(class, change);
        let (_, may) = told.split_once("; ").unwrap();
        may.into()
    }

    #[test]
    fn an_option_is_told_with_its_fields() {
        assert_eq!(
            told_of(2, |option| option.amount = 0),
            "option: class equity, group 3, right bought put, kind ordinary, amount 0, delta 5,000, \
             gamma 60,000, vega 1,234, volatility 65,535, days 0; amount may be 1 to 1,000,000"
        );
        let all = told_of(4, |option| {
            *option = OptionRow {
                class: 7,
                group: 32,
                right: 4,
                kind: 9,
                amount: 1_000_001,
                delta: 10_001,
                days: 36_001,
                ..*option
            }
        });
        assert_eq!(
            all,
            "option: class 7, group 32, right 4, kind 9, amount 1,000,001, delta 10,001, \
             gamma 60,000, vega 1,234, volatility 65,535, days 36,001; \
             class may be equity (2), fx (3), commodity (4); group may be 0 to 31; \
             right may be bought call (0), bought put (1), sold call (2), sold put (3); \
             amount may be 1 to 1,000,000; delta may be 0 to 10,000"
        );
    }

    /// Catches a limit of another class.
    #[test]
    fn kind_and_days_are_held_to_the_class() {
        let shares = "kind may be ordinary (1), diversified (2), index (3)";
        assert_eq!(may(2, |option| option.kind = 0), shares);
        assert_eq!(may(2, |option| option.kind = 4), shares);
        for class in [3, 4] {
            assert_eq!(may(class, |option| option.kind = 1), "kind may be none (0)");
        }
        for class in [2, 3] {
            assert_eq!(may(class, |option| option.days = 1), "days must be 0");
        }
        let days = "days may be 0 to 36,000";
        assert_eq!(may(4, |option| option.days = 36_001), days);
    }

    /// Catches a limit that is one off.
    #[test]
    fn options_at_their_limits_are_not_told() {
        for class in 2..=4 {
            for (group, right, amount, delta) in [(0, 0, 1, 0), (31, 3, 1_000_000, 10_000)] {
                let option = OptionRow {
                    group,
                    right,
                    amount,
                    delta,
                    days: if class == 4 { 36_000 } else { 0 },
                    ..clean(class)
                };
                assert_eq!(told(&option), None);
            }
        }
        for kind in 1..=3 {
            assert_eq!(told(&OptionRow { kind, ..clean(2) }), None);
        }
    }
}
