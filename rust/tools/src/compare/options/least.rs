//! What a run must have seen of options at least.

use super::Seen;

/// What 20,000 cases must show at least: about a third of what they do show.
pub const LEAST: Seen = Seen {
    sizes: [410, 820, 3_040, 220, 26],
    lengths: [154, 51, 61, 43, 42, 650, 428, 263],
    ends: [77, 81, 73, 70, 29, 18, 88, 49, 30, 75, 42, 17],
    places: [606, 437, 209, 262, 228, 269],
    short: 1_440,
    rooms: [1_720, 1_325, 575, 1_050],
    sorts: [
        1_420, 1_440, 1_400, 1_700, 1_750, 1_710, 1_740, 1_290, 430, 935, 2_080, 1_950, 740,
    ],
    gammas: [745, 756, 749, 736, 196, 441, 375, 664, 306, 1_720, 266, 111],
    vegas: [
        1_300, 1_320, 1_290, 1_250, 189, 421, 357, 1_150, 707, 1_700, 1_680, 2_630,
    ],
    two: [4_530, 2_390, 4_480, 1_240, 1_200, 44],
};

#[cfg(test)]
mod tests {
    use super::super::super::tally::Tally;
    use super::*;

    /// Catches a minimum that is left out, is nothing or is not asked for.
    #[test]
    fn every_count_has_a_minimum() {
        let lacking = Tally::default().lacking(20_000);
        let named = LEAST.named();
        assert_eq!(named.len(), 79);
        for (name, least) in named {
            let line = format!("{name}: 0 where at least {least} are wanted");
            assert!(lacking.contains(&line), "{line}");
        }
    }

    /// Catches a count that is held to the minimum of another.
    #[test]
    fn every_count_is_held_to_its_own_minimum() {
        for at in 0..LEAST.sorts.len() {
            let mut tally = Tally {
                options: LEAST,
                ..Tally::default()
            };
            tally.options.sorts[at] -= 1;
            let lacking = tally.lacking(20_000);
            let about = |line: &&String| line.starts_with("options with ");
            assert_eq!(lacking.iter().filter(about).count(), 1);
        }
    }
}
