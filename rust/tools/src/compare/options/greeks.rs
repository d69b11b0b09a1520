//! What is counted of gamma and vega: in which classes and on which sides they are charged, and where
//! options meet.

use super::underlyings::{impact, shift, sides, Sides};
use books::options::OptionRow;

/// The names of gammas.
pub const GAMMAS: [&str; 12] = [
    "charged in equity",
    "charged in foreign exchange",
    "charged in commodities",
    "charged of both sides",
    "of equal sides",
    "of two groups on two sides",
    "of two classes on two sides",
    "charged of delta 0",
    "past 32 bits",
    "not charged",
    "with a half",
    "with two halves in a group",
];
/// The names of vegas.
pub const VEGAS: [&str; 12] = [
    "charged in equity",
    "charged in foreign exchange",
    "charged in commodities",
    "charged of both sides",
    "of equal sides",
    "of two groups on two sides",
    "of two classes on two sides",
    "charged of delta 0",
    "past 32 bits",
    "bought",
    "sold",
    "in no whole thousands",
];

/// Whether two underlyings that are so have nets on two sides.
fn on_two_sides(own: &[Sides], so: fn(&Sides, &Sides) -> bool) -> bool {
    let long = own.iter().filter(|one| one.net() > 0);
    let mut pairs = long.flat_map(|one| own.iter().map(move |other| (one, other)));
    pairs.any(|(one, other)| other.net() < 0 && so(one, other))
}

/// What is counted of both, where a net that is so is charged, and so many halvings make it mils of 32
/// bits.
fn common(own: &[Sides], charged: fn(&Sides) -> bool, bits: u32) -> [bool; 9] {
    let some = |wanted: &dyn Fn(&Sides) -> bool| own.iter().any(wanted);
    [
        some(&|sides| sides.class == 2 && charged(sides)),
        some(&|sides| sides.class == 3 && charged(sides)),
        some(&|sides| sides.class == 4 && charged(sides)),
        some(&|sides| sides.meet() && charged(sides)),
        some(&|sides| sides.meet() && sides.net() == 0),
        on_two_sides(own, |one, other| one.class == other.class),
        on_two_sides(own, |one, other| {
            one.class != other.class && one.group == other.group
        }),
        some(&|sides| sides.without_delta && charged(sides)),
        some(&|sides| charged(sides) && sides.net().unsigned_abs() >> bits > 0),
    ]
}

/// Two lists in one.
fn all(common: [bool; 9], own: [bool; 3]) -> [bool; 12] {
    std::array::from_fn(|at| *common.iter().chain(&own).nth(at).unwrap_or(&false))
}

/// Which of the gammas an accepted table has.
pub fn gammas(options: &[OptionRow]) -> [bool; 12] {
    let own = sides(options, impact);
    let some = |wanted: fn(&Sides) -> bool| own.iter().any(wanted);
    let more = [
        some(|sides| sides.net() > 0),
        some(|sides| sides.net() < 0 && sides.net() % 2 != 0),
        some(|sides| sides.net() < 0 && sides.odd > 1),
    ];
    // Half mils.
    all(common(&own, |sides| sides.net() < 0, 33), more)
}

/// Which of the vegas an accepted table has.
pub fn vegas(options: &[OptionRow]) -> [bool; 12] {
    let own = sides(options, shift);
    let some = |wanted: fn(&Sides) -> bool| own.iter().any(wanted);
    let more = [
        some(|sides| sides.net() > 0),
        some(|sides| sides.net() < 0),
        some(|sides| sides.net() % 1_000_000 != 0),
    ];
    all(common(&own, |sides| sides.net() != 0, 32), more)
}

#[cfg(test)]
mod tests {
    use super::*;

    /// A bought call on a commodity.
    const CALL: OptionRow = OptionRow {
        class: 4,
        group: 2,
        right: 0,
        kind: 0,
        amount: 3,
        delta: 5_000,
        gamma: 5,
        vega: 7,
        volatility: 11,
        days: 90,
    };
    const SOLD: OptionRow = OptionRow { right: 2, ..CALL };

    /// The names of the gammas and vegas that some options have.
    fn names(options: &[OptionRow]) -> [String; 2] {
        let named = |names: [&str; 12], seen: [bool; 12]| {
            let names = names.into_iter().zip(seen).filter(|(_, seen)| *seen);
            names.map(|(name, _)| name).collect::<Vec<_>>().join("; ")
        };
        [named(GAMMAS, gammas(options)), named(VEGAS, vegas(options))]
    }

    /// Catches gamma and vega that are counted on the wrong side, or without meeting.
    #[test]
    fn greeks_count_by_their_sides() {
        let odd = "in no whole thousands";
        let vega = |side: &str| format!("charged in commodities; {side}; {odd}");
        let half = "charged in commodities; with a half";
        assert_eq!(names(&[CALL]), ["not charged", &vega("bought")]);
        assert_eq!(names(&[SOLD]), [half, &vega("sold")]);
        assert_eq!(names(&[CALL, SOLD]), ["of equal sides"; 2]);
        let halves = "charged of both sides; with a half; with two halves in a group";
        let [gammas, vegas] = names(&[CALL, SOLD, SOLD]);
        assert_eq!(gammas, format!("charged in commodities; {halves}"));
        assert_eq!(vegas, vega("charged of both sides; sold"));
    }

    /// Catches groups and classes that are taken for one another.
    #[test]
    fn greeks_count_by_their_underlyings() {
        let group = OptionRow { group: 3, ..SOLD };
        let two = "of two groups on two sides";
        let [gammas, _] = names(&[CALL, group]);
        assert_eq!(
            gammas,
            format!("charged in commodities; {two}; not charged; with a half")
        );
        let class = OptionRow {
            class: 3,
            days: 0,
            delta: 0,
            ..SOLD
        };
        let two = "of two classes on two sides; charged of delta 0";
        let [gammas, _] = names(&[CALL, class]);
        assert_eq!(
            gammas,
            format!("charged in foreign exchange; {two}; not charged")
        );
    }

    /// Catches bits that are counted of half mils: vega is 2,500 x 65,535 x 27, and gamma half of
    /// 225 x 1,000,000 x 38, which is less than 2^32.
    #[test]
    fn bits_are_counted_of_mils() {
        let large = OptionRow {
            amount: 1_000_000,
            gamma: 38,
            vega: 65_535,
            volatility: 27,
            ..SOLD
        };
        let [gammas, vegas] = names(&[large]);
        assert_eq!(gammas, "charged in commodities");
        assert!(vegas.contains("; past 32 bits; "), "{vegas}");
        let [gammas, _] = names(&[OptionRow { gamma: 39, ..large }]);
        assert_eq!(gammas, "charged in commodities; past 32 bits");
    }
}
